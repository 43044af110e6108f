// The texts of the plain structs (plain.h), written by hand into room that is there: what printing itself
// costs, without a table, a message or a check.
#pragma once
#include <charconv>
#include <cstring>
#include <string>

#include "plain.h"

namespace print {

// Room for a text, and its end so far. Numbers take the digits of std::to_chars.
struct Room {
  char* end;

  void bytes(const char* from, size_t count) {
    memcpy(end, from, count);
    end += count;
  }
  template <size_t N>
  void put(const char (&words)[N]) {
    bytes(words, N - 1);
  }
  template <class Number>
  void number(Number it) {
    end = std::to_chars(end, end + 20, it).ptr;
  }
  void text(const std::string& it) {
    put("\"");
    bytes(it.data(), it.size());
    put("\"");
  }
  void truth(bool it) {
    if (it)
      put("true");
    else
      put("false");
  }
  void nested(const plain::Nested& it) {
    put("{a: ");
    number(it.a);
    put(", b: ");
    number(it.b);
    put("}");
  }
};

inline void value(Room& room, const plain::Records& all) {
  room.put("{items: [");
  bool later = false;
  for (const plain::Record& it : all.items) {
    if (later) room.put(", ");
    later = true;
    room.put("{id: ");
    room.number(it.id);
    room.put(", kind: ");
    room.number(it.kind);
    room.put(", flags: ");
    room.number(it.flags);
    room.put(", active: ");
    room.truth(it.active);
    room.put(", score: ");
    room.number(it.score);
    room.put(", name: ");
    room.text(it.name);
    room.put(", extra: ");
    if (it.has_extra)
      room.nested(it.extra);
    else
      room.put("absent");
    room.put("}");
  }
  room.put("]}");
}

inline void value(Room& room, const plain::Chain& all) {
  for (uint64_t it : all.values) {
    room.put("{value: ");
    room.number(it);
    room.put(", next: ");
  }
  room.put("absent");
  for (size_t k = 0; k < all.values.size(); k++) room.put("}");
}

inline void value(Room& room, const plain::Wide& all) {
  room.put("table(20) {");
  uint32_t ordinal = 0;
  auto name = [&] {
    if (ordinal) room.put(", ");
    room.put("m");
    room.number(++ordinal);
    room.put(": ");
  };
  for (uint32_t it : all.small) name(), room.number(it);
  for (uint64_t it : all.large) name(), room.number(it);
  for (const std::string& it : all.texts) name(), room.text(it);
  name();
  room.nested(all.nested);
  name();
  room.truth(all.truth);
  room.put("}");
}

// The text of a value, in room for `most` bytes.
template <class Plain>
std::string text(const Plain& it, size_t most) {
  std::string made(most, 0);
  Room room{made.data()};
  value(room, it);
  made.resize(size_t(room.end - made.data()));
  return made;
}

}  // namespace print
