// The decoder, the encoder and the notation: the coding table and the messages of the shapes in FIDL,
// and the calls of their library (crates/fidl_bench).
#pragma once
#include <cstddef>
#include <cstdint>
#include <string>

extern "C" {
// Zero where the message encodes a value of the root's type, and was decoded `again` times after the
// first; else why not (crates/fidl_bench/src/failure.rt). A slice is passed as its start and its length.
uint32_t fidl_bench_decode(const uint8_t* table, size_t table_length, const uint8_t* root, size_t root_length,
                           const uint8_t* message, size_t message_length, uint64_t again);
// The same for each root of shapes.fidl that is a shape of this bench. Each time all of the value is
// read; `sum` gets its sum.
uint32_t fidl_bench_read(const uint8_t* table, size_t table_length, const uint8_t* root, size_t root_length,
                         const uint8_t* message, size_t message_length, uint64_t again, uint64_t* sum);
// The same, by members that are looked up once, before the first message (docs/views.md).
uint32_t fidl_bench_read_found(const uint8_t* table, size_t table_length, const uint8_t* root, size_t root_length,
                               const uint8_t* message, size_t message_length, uint64_t again, uint64_t* sum);
// Decodes the message once, and encodes its value `again` times after the first. `copy`, which is as
// long as the message, gets the bytes of the last.
uint32_t fidl_bench_encode(const uint8_t* table, size_t table_length, const uint8_t* root, size_t root_length,
                           const uint8_t* message, size_t message_length, uint64_t again, uint8_t* copy,
                           size_t copy_length);
// Decodes the message once, and writes the text of its value `again` times after the first, to a
// buffer of `text_length` bytes that is allocated once. The front of `text` gets the last.
uint32_t fidl_bench_dump(const uint8_t* table, size_t table_length, const uint8_t* root, size_t root_length,
                         const uint8_t* message, size_t message_length, uint64_t again, uint8_t* text,
                         size_t text_length);
// Reads the value that a text spells `again` times after the first, and drops each.
uint32_t fidl_bench_read_text(const uint8_t* table, size_t table_length, const uint8_t* root, size_t root_length,
                              const uint8_t* text, size_t text_length, uint64_t again);
}

// A shape: its root in the table, its message, and the text of its value, where texts are measured.
struct FidlShape {
  const char* root;
  std::string message;
  std::string text;
};

// The coding table of shapes.fidl, as `fidl compile` writes it.
std::string fidl_table();
std::string fidl_records();
std::string fidl_chain();
std::string fidl_wide();
std::string fidl_tables();
std::string fidl_unions();
std::string fidl_texts();
std::string fidl_lists();
std::string fidl_strict();
