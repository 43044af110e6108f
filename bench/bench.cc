// The bench (docs/performance.md): the lines of each shape, codec and operation.
#include <cstdlib>
#include <cstring>
#include <string>
#include <vector>

#include "capn.h"
#include "fidl.h"
#include "line.h"
#include "plain.h"
#include "print.h"
#include "proto.h"
#include "values.h"

static const uint8_t* start(const std::string& bytes) { return reinterpret_cast<const uint8_t*>(bytes.data()); }

// ---------------------------------------------------------------- the decoder, the encoder and the notation

static uint32_t decode(const std::string& table, const std::string& root, const std::string& message, uint64_t times) {
  return fidl_bench_decode(start(table), table.size(), start(root), root.size(), start(message), message.size(), times - 1);
}

// By fidl_bench_read, or by fidl_bench_read_found.
static uint64_t decode_and_read(decltype(fidl_bench_read)* read, const std::string& table, const FidlShape& fidl, uint64_t times) {
  uint64_t sum = 0;
  uint32_t failure = read(start(table), table.size(), start(fidl.root), strlen(fidl.root), start(fidl.message),
                          fidl.message.size(), times - 1, &sum);
  must(failure == 0, "the decoder refuses a message");
  return sum;
}

static void copy_line(const Printer& printer, const char* shape, const char* what, const std::string& bytes) {
  std::vector<char> copy(bytes.size());
  printer.line(shape, "memcpy", what, bytes.size(), each([&] {
                 memcpy(copy.data(), bytes.data(), bytes.size());
                 asm volatile("" : : "r"(copy.data()) : "memory");
                 return 1;
               }));
}

static void fidl_lines(const Printer& printer, const char* shape, const FidlShape& fidl, uint64_t want) {
  static const std::string table = fidl_table();
  size_t size = fidl.message.size();
  must(decode(table, fidl.root, fidl.message, 1) == 0, "the decoder refuses a message");
  must(decode(table, fidl.root, fidl.message.substr(0, size - 8), 1) == 4, "the decoder accepts a message that is cut off");
  must(decode_and_read(fidl_bench_read, table, fidl, 1) == want, "the decoder reads another sum");
  must(decode_and_read(fidl_bench_read_found, table, fidl, 1) == want, "members looked up once read another sum");
  copy_line(printer, shape, "copy", fidl.message);
  printer.line(shape, "rongkhab", "decode", size, [&](uint64_t times) {
    must(decode(table, fidl.root, fidl.message, times) == 0, "the decoder refuses a message");
    return 0;
  });
  printer.line(shape, "rongkhab", "decode + read", size,
               [&](uint64_t times) { return decode_and_read(fidl_bench_read, table, fidl, times); });
  printer.line(shape, "rongkhab", "decode + found", size,
               [&](uint64_t times) { return decode_and_read(fidl_bench_read_found, table, fidl, times); });
}

// The text of the message's value, in room for one byte more.
static std::string dump(const std::string& table, const FidlShape& fidl, uint64_t times) {
  std::string text(fidl.text.size() + 1, 0);
  uint32_t failure = fidl_bench_dump(start(table), table.size(), start(fidl.root), strlen(fidl.root), start(fidl.message),
                                     fidl.message.size(), times - 1, reinterpret_cast<uint8_t*>(text.data()), text.size());
  must(failure == 0, "the text of a message is not written");
  return text.c_str();
}

static std::string encode(const std::string& table, const FidlShape& fidl, uint64_t times) {
  std::string copy(fidl.message.size(), 0);
  uint32_t failure = fidl_bench_encode(start(table), table.size(), start(fidl.root), strlen(fidl.root), start(fidl.message),
                                       fidl.message.size(), times - 1, reinterpret_cast<uint8_t*>(copy.data()), copy.size());
  must(failure == 0, "the encoder refuses a value");
  return copy;
}

static uint32_t read_text(const std::string& table, const FidlShape& fidl, const std::string& text, uint64_t times) {
  return fidl_bench_read_text(start(table), table.size(), start(fidl.root), strlen(fidl.root), start(text), text.size(), times - 1);
}

static void fidl_writing_lines(const Printer& printer, const char* shape, const FidlShape& fidl) {
  static const std::string table = fidl_table();
  must(encode(table, fidl, 1) == fidl.message, "the encoder writes another message");
  must(dump(table, fidl, 1) == fidl.text, "another text is written");
  printer.line(shape, "rongkhab", "encode", fidl.message.size(), [&](uint64_t times) { return encode(table, fidl, times).size(); });
  copy_line(printer, shape, "copy text", fidl.text);
  printer.line(shape, "rongkhab", "dump", fidl.text.size(), [&](uint64_t times) { return dump(table, fidl, times).size(); });
  must(read_text(table, fidl, fidl.text, 1) == 0, "a text is not read");
  must(read_text(table, fidl, fidl.text.substr(0, fidl.text.size() - 1), 1) != 0, "a text that is cut is read");
  printer.line(shape, "rongkhab", "read text", fidl.text.size(), [&](uint64_t times) {
    must(read_text(table, fidl, fidl.text, times) == 0, "a text is not read");
    return times;
  });
}

// ---------------------------------------------------------------- its peers

// The same text, printed by hand from plain structs.
template <class Plain>
static void print_line(const Printer& printer, const char* shape, const Plain& value, const std::string& want) {
  must(print::text(value, 2 * want.size()) == want, "another text is printed by hand");
  std::vector<char> room(2 * want.size());
  printer.line(shape, "plain", "print", want.size(), each([&] {
                 print::Room made{room.data()};
                 print::value(made, value);
                 return uint64_t(made.end - room.data());
               }));
}

// The lines of FlatBuffers for each shape, each compiled apart (flat.cc).
#define FLAT_LINES(shape) void flat_lines_##shape(const Printer& printer, const char* shape_name, uint64_t want);
FLAT_LINES(Records) FLAT_LINES(Chain) FLAT_LINES(Wide) FLAT_LINES(Tables) FLAT_LINES(Unions) FLAT_LINES(Texts) FLAT_LINES(Lists) FLAT_LINES(Strict)

template <class Shape>
static void capn_lines(const Printer& printer, const char* shape, uint64_t want) {
  const std::string message = Shape::make();
  Fresh fresh(message);
  must(Shape::read(fresh.copied()) == want, "Cap'n Proto reads another sum");
  printer.line(shape, "capnproto", "read", message.size(), each([&] { return Shape::read(fresh.copied()); }));
}

template <class Shape>
static void proto_lines(const Printer& printer, const char* shape, uint64_t want) {
  const std::string message = Shape::make();
  typename Shape::Message parsed;
  Fresh fresh(message);
  auto parse = [&] {
    const std::string& copy = fresh.copied();
    must(parsed.ParseFromArray(copy.data(), int(copy.size())), "protobuf refuses a message");
    return 1;
  };
  must(parse() && Shape::read(parsed) == want, "protobuf reads another sum");
  printer.line(shape, "protobuf", "parse", message.size(), each(parse));
}

int main(int count, char** words) {
  Printer printer{count > 1 ? words[1] : nullptr, count > 2 ? strtoull(words[2], nullptr, 10) : 0};
  printf("%-8s %-12s %-24s %7s %12s %12s\n", "shape", "codec", "operation", "bytes", "ns/message", "allocations");

  const FidlShape records{"bench/Records", fidl_records(), plain::text(plain::records())};
  fidl_lines(printer, "records", records, sum_of_records());
  fidl_writing_lines(printer, "records", records);
  print_line(printer, "records", plain::records(), records.text);
  flat_lines_Records(printer, "records", sum_of_records());
  capn_lines<capn::Records>(printer, "records", sum_of_records());
  proto_lines<proto::Records>(printer, "records", sum_of_records());

  const FidlShape chain{"bench/Node", fidl_chain(), plain::text(plain::chain())};
  fidl_lines(printer, "chain", chain, sum_of_chain());
  fidl_writing_lines(printer, "chain", chain);
  print_line(printer, "chain", plain::chain(), chain.text);
  flat_lines_Chain(printer, "chain", sum_of_chain());
  capn_lines<capn::Chain>(printer, "chain", sum_of_chain());
  proto_lines<proto::Chain>(printer, "chain", sum_of_chain());

  const FidlShape wide{"bench/Wide", fidl_wide(), plain::text(plain::wide())};
  fidl_lines(printer, "wide", wide, sum_of_wide());
  fidl_writing_lines(printer, "wide", wide);
  print_line(printer, "wide", plain::wide(), wide.text);
  flat_lines_Wide(printer, "wide", sum_of_wide());
  capn_lines<capn::Wide>(printer, "wide", sum_of_wide());
  proto_lines<proto::Wide>(printer, "wide", sum_of_wide());

  fidl_lines(printer, "tables", {"bench/Items", fidl_tables(), ""}, sum_of_tables());
  flat_lines_Tables(printer, "tables", sum_of_tables());
  capn_lines<capn::Tables>(printer, "tables", sum_of_tables());
  proto_lines<proto::Tables>(printer, "tables", sum_of_tables());

  fidl_lines(printer, "unions", {"bench/Choices", fidl_unions(), ""}, sum_of_unions());
  flat_lines_Unions(printer, "unions", sum_of_unions());
  capn_lines<capn::Unions>(printer, "unions", sum_of_unions());
  proto_lines<proto::Unions>(printer, "unions", sum_of_unions());

  fidl_lines(printer, "texts", {"bench/Texts", fidl_texts(), ""}, sum_of_texts());
  flat_lines_Texts(printer, "texts", sum_of_texts());
  capn_lines<capn::Texts>(printer, "texts", sum_of_texts());
  proto_lines<proto::Texts>(printer, "texts", sum_of_texts());

  fidl_lines(printer, "lists", {"bench/Lists", fidl_lists(), ""}, sum_of_lists());
  flat_lines_Lists(printer, "lists", sum_of_lists());
  capn_lines<capn::Lists>(printer, "lists", sum_of_lists());
  proto_lines<proto::Lists>(printer, "lists", sum_of_lists());

  fidl_lines(printer, "strict", {"bench/Marks", fidl_strict(), ""}, sum_of_strict());
  flat_lines_Strict(printer, "strict", sum_of_strict());
  capn_lines<capn::Strict>(printer, "strict", sum_of_strict());
  proto_lines<proto::Strict>(printer, "strict", sum_of_strict());

  return 0;
}
