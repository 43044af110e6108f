// FlatBuffers: the lines of one shape, -DSHAPE=Records for example. Each shape is compiled apart, so
// that its verifier is inlined as far as in a program that has this shape alone.
#include "flat.h"
#include "line.h"
#include "values.h"

namespace {

template <class Shape>
void reading_lines(const Printer& printer, const char* shape, const std::string& message, uint64_t want) {
  Fresh fresh(message);
  auto verified = [&]() -> const std::string& {
    const std::string& copy = fresh.copied();
    must(flat::verifies<typename Shape::Root>(copy), "FlatBuffers refuses a message");
    return copy;
  };
  must(Shape::read(verified()) == want, "FlatBuffers reads another sum");
  printer.line(shape, "flatbuffers", "verify", message.size(), each([&] { return verified().size(); }));
  printer.line(shape, "flatbuffers", "verify + read", message.size(), each([&] { return Shape::read(verified()); }));
}

template <class Shape>
void building_lines(const Printer& printer, const char* shape, const typename Shape::Plain& value, size_t size) {
  printer.line(shape, "flatbuffers", "build", size, each([&] {
                 flatbuffers::FlatBufferBuilder builder;
                 Shape::build(builder, value);
                 return builder.GetSize();
               }));
  flatbuffers::FlatBufferBuilder reused;
  printer.line(shape, "flatbuffers", "build reused", size, each([&] {
                 reused.Clear();
                 Shape::build(reused, value);
                 return reused.GetSize();
               }));
}

// A shape whose building is measured too has plain structs.
template <class Shape, class = typename Shape::Plain>
void all_lines(const Printer& printer, const char* shape, uint64_t want, int) {
  const typename Shape::Plain value = Shape::value();
  const std::string message = flat::message_of<Shape>(value);
  reading_lines<Shape>(printer, shape, message, want);
  building_lines<Shape>(printer, shape, value, message.size());
}
template <class Shape>
void all_lines(const Printer& printer, const char* shape, uint64_t want, long) {
  reading_lines<Shape>(printer, shape, Shape::make(), want);
}

}  // namespace

#define NAMED(shape) flat_lines_##shape
#define LINES(shape) NAMED(shape)
void LINES(SHAPE)(const Printer& printer, const char* shape, uint64_t want) { all_lines<flat::SHAPE>(printer, shape, want, 0); }
