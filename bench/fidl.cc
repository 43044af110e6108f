// The coding table of shapes.fidl, and the messages of the shapes (docs/wire.md).
#include "fidl.h"

#include <fstream>
#include <sstream>

#include "values.h"

namespace {

// Bytes that are written front to back, or at a place that was claimed.
struct Bytes {
  std::string bytes;

  // So many zeros at the end, and more up to a multiple of 8; gives their place.
  size_t claim(size_t count) {
    size_t place = bytes.size();
    bytes.resize(place + (count + 7) / 8 * 8);
    return place;
  }
  void put(size_t place, uint64_t number, size_t count) {
    for (size_t k = 0; k < count; k++) bytes[place + k] = char(number >> 8 * k);
  }
  void push(uint64_t number, size_t count) {
    bytes.resize(bytes.size() + count);
    put(bytes.size() - count, number, count);
  }
  void put_present(size_t marker) { put(marker, UINT64_MAX, 8); }
  // The envelope of a member out of line. It counts all bytes from the member's object on, so it is
  // put when they are all claimed.
  void put_envelope(size_t envelope, size_t object) { put(envelope, bytes.size() - object, 4); }
  // The envelope of a member that stands in it.
  void put_inline(size_t envelope, uint64_t number) {
    put(envelope, number, 4);
    put(envelope + 6, 1, 2);
  }
  void put_text(size_t place, const std::string& text) {
    put(place, text.size(), 8);
    put_present(place + 8);
    size_t object = claim(text.size());
    bytes.replace(object, text.size(), text);
  }
};

// The object of a vector of so many elements of a size, whose count stands at a place.
size_t claim_vector(Bytes& message, size_t place, uint64_t count, size_t size) {
  message.put(place, count, 8);
  message.put_present(place + 8);
  return message.claim(count * size);
}

// The message of a struct that holds only a vector, and the place of its first element.
size_t begin_vector(Bytes& message, uint64_t count, size_t size) { return claim_vector(message, message.claim(16), count, size); }

size_t claim_nested(Bytes& message, uint32_t i) {
  size_t nested = message.claim(16);
  message.put(nested, i + 1ull, 8);
  message.put(nested + 8, i, 4);
  return nested;
}
size_t claim_number(Bytes& message, uint64_t number) {
  size_t place = message.claim(8);
  message.put(place, number, 8);
  return place;
}
size_t claim_text(Bytes& message, const std::string& text) {
  size_t place = message.claim(16);
  message.put_text(place, text);
  return place;
}

}  // namespace

std::string fidl_table() {
  std::ifstream file(TABLE, std::ios::binary);
  must(bool(file), "the file of the coding table is not there");
  std::ostringstream bytes;
  bytes << file.rdbuf();
  return bytes.str();
}

std::string fidl_records() {
  Bytes message;
  size_t first = begin_vector(message, RECORDS, 40);
  for (uint32_t i = 0; i < RECORDS; i++) {
    size_t record = first + 40 * i;
    message.put(record, i, 4);
    message.put(record + 4, kind_of(i), 2);
    message.put(record + 6, flags_of(i), 1);
    message.put(record + 7, active_of(i), 1);
    message.put(record + 8, uint64_t(score_of(i)), 8);
    message.put_text(record + 16, name_of(i));
    if (!has_extra(i)) continue;
    message.put_present(record + 32);
    claim_nested(message, i);
  }
  return message.bytes;
}

std::string fidl_chain() {
  Bytes message;
  size_t node = message.claim(16);
  for (uint32_t i = 0; i < BOXES; i++) {
    message.put(node, i, 8);
    message.put_present(node + 8);
    node = message.claim(16);
  }
  message.put(node, BOXES, 8);
  return message.bytes;
}

std::string fidl_wide() {
  constexpr uint32_t MEMBERS = 20;
  Bytes message;
  size_t table = message.claim(16);
  message.put(table, MEMBERS, 8);
  message.put_present(table + 8);
  size_t envelopes = message.claim(8 * MEMBERS);
  auto envelope_of = [&](uint32_t ordinal) { return envelopes + 8 * (ordinal - 1); };
  for (uint32_t k = 1; k <= 8; k++) message.put_inline(envelope_of(k), small_of(k));
  for (uint32_t k = 9; k <= 14; k++) {
    size_t number = message.claim(8);
    message.put(number, large_of(k), 8);
    message.put_envelope(envelope_of(k), number);
  }
  for (uint32_t k = 15; k <= 18; k++) {
    size_t text = message.claim(16);
    message.put_text(text, text_of(k));
    message.put_envelope(envelope_of(k), text);
  }
  size_t nested = message.claim(16);
  message.put(nested, 7, 8);
  message.put(nested + 8, 9, 4);
  message.put_envelope(envelope_of(19), nested);
  message.put_inline(envelope_of(20), true);
  return message.bytes;
}

std::string fidl_tables() {
  constexpr uint32_t MEMBERS = 6;
  Bytes message;
  size_t first = begin_vector(message, ITEMS, 16);
  for (uint32_t i = 0; i < ITEMS; i++) {
    size_t envelopes = claim_vector(message, first + 16 * i, MEMBERS, 8);
    auto envelope_of = [&](uint32_t ordinal) { return envelopes + 8 * (ordinal - 1); };
    message.put_inline(envelope_of(1), i);
    size_t number = claim_number(message, uint64_t(score_of(i)));
    message.put_envelope(envelope_of(2), number);
    size_t text = claim_text(message, item_name_of(i));
    message.put_envelope(envelope_of(3), text);
    message.put_inline(envelope_of(4), kind_of(i));
    if (has_place(i)) {
      size_t place = claim_nested(message, i);
      message.put_envelope(envelope_of(5), place);
    }
    message.put_inline(envelope_of(6), active_of(i));
  }
  return message.bytes;
}

std::string fidl_unions() {
  Bytes message;
  size_t first = begin_vector(message, CHOICES, 16);
  for (uint32_t i = 0; i < CHOICES; i++) {
    size_t place = first + 16 * i, object = 0;
    message.put(place, choice_of(i), 8);
    if (choice_of(i) == 1) message.put_inline(place + 8, i);
    if (choice_of(i) == 2) object = claim_number(message, uint64_t(score_of(i)));
    if (choice_of(i) == 3) object = claim_text(message, item_name_of(i));
    if (choice_of(i) == 4) object = claim_nested(message, i);
    if (object) message.put_envelope(place + 8, object);
  }
  return message.bytes;
}

std::string fidl_texts() {
  Bytes message;
  size_t first = message.claim(16 * TEXTS);
  for (uint32_t k = 0; k < TEXTS; k++) message.put_text(first + 16 * k, long_text_of(k));
  return message.bytes;
}

std::string fidl_lists() {
  Bytes message;
  size_t first = begin_vector(message, ENTRIES, 64);
  for (uint32_t i = 0; i < ENTRIES; i++) {
    size_t entry = first + 64 * i;
    message.put(entry, i, 4);
    size_t weights = claim_vector(message, entry + 8, weights_of(i), 4);
    for (uint32_t k = 0; k < weights_of(i); k++) message.put(weights + 4 * k, weight_of(i, k), 4);
    size_t scores = claim_vector(message, entry + 24, scores_of(i), 8);
    for (uint32_t k = 0; k < scores_of(i); k++) message.put(scores + 8 * k, uint64_t(score_of(i + k)), 8);
    message.put_text(entry + 40, name_of(i));
    message.put(entry + 56, uint64_t(score_of(i)), 8);
  }
  return message.bytes;
}

std::string fidl_strict() {
  Bytes message;
  size_t first = begin_vector(message, MARKS, 16);
  for (uint32_t i = 0; i < MARKS; i++) {
    size_t mark = first + 16 * i;
    message.put(mark, color_of(i), 1);
    message.put(mark + 2, access_of(i), 2);
    message.put(mark + 4, active_of(i), 1);
    message.put(mark + 8, uint32_t(level_of(i)), 4);
    message.put(mark + 12, i, 4);
  }
  return message.bytes;
}
