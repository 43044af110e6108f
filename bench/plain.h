// The values of the shapes (shapes.fidl) as plain structs, from which a message is built, and their
// texts (docs/notation.md).
#pragma once
#include <cstdint>
#include <string>
#include <vector>

#include "values.h"

namespace plain {

struct Nested {
  uint64_t a;
  uint32_t b;
};

struct Record {
  uint32_t id;
  uint16_t kind;
  uint8_t flags;
  bool active;
  int64_t score;
  std::string name;
  bool has_extra;
  Nested extra;
};

struct Records {
  std::vector<Record> items;
};

// The nodes from the first on; each has the next one in its box.
struct Chain {
  std::vector<uint64_t> values;
};

struct Wide {
  uint32_t small[8];   // m1 to m8
  uint64_t large[6];   // m9 to m14
  std::string texts[4];  // m15 to m18
  Nested nested;       // m19
  bool truth;          // m20
};

inline Records records() {
  Records all;
  for (uint32_t i = 0; i < RECORDS; i++)
    all.items.push_back({i, kind_of(i), flags_of(i), active_of(i), score_of(i), name_of(i), has_extra(i), {i + 1ull, i}});
  return all;
}

inline Chain chain() {
  Chain all;
  for (uint32_t i = 0; i <= BOXES; i++) all.values.push_back(i);
  return all;
}

inline Wide wide() {
  Wide all;
  for (uint32_t k = 0; k < 8; k++) all.small[k] = small_of(1 + k);
  for (uint32_t k = 0; k < 6; k++) all.large[k] = large_of(9 + k);
  for (uint32_t k = 0; k < 4; k++) all.texts[k] = text_of(15 + k);
  all.nested = {7, 9};
  all.truth = true;
  return all;
}

// ---------------------------------------------------------------- texts

inline std::string text(bool truth) { return truth ? "true" : "false"; }
inline std::string text(const std::string& it) { return "\"" + it + "\""; }
inline std::string text(const Nested& it) { return "{a: " + std::to_string(it.a) + ", b: " + std::to_string(it.b) + "}"; }

inline std::string text(const Record& it) {
  return "{id: " + std::to_string(it.id) + ", kind: " + std::to_string(it.kind) + ", flags: " + std::to_string(it.flags) +
         ", active: " + text(it.active) + ", score: " + std::to_string(it.score) + ", name: " + text(it.name) +
         ", extra: " + (it.has_extra ? text(it.extra) : "absent") + "}";
}

inline std::string text(const Records& all) {
  std::string items;
  for (const Record& it : all.items) items += (items.empty() ? "" : ", ") + text(it);
  return "{items: [" + items + "]}";
}

inline std::string text(const Chain& all) {
  std::string front, back;
  for (uint64_t value : all.values) {
    front += "{value: " + std::to_string(value) + ", next: ";
    back += "}";
  }
  return front + "absent" + back;
}

inline std::string text(const Wide& all) {
  std::string members;
  uint32_t ordinal = 0;
  auto add = [&](const std::string& it) {
    members += ordinal ? ", m" : "m";
    members += std::to_string(++ordinal) + ": " + it;
  };
  for (uint32_t number : all.small) add(std::to_string(number));
  for (uint64_t number : all.large) add(std::to_string(number));
  for (const std::string& it : all.texts) add(text(it));
  add(text(all.nested));
  add(text(all.truth));
  return "table(" + std::to_string(ordinal) + ") {" + members + "}";
}

}  // namespace plain
