// The values of the shapes (shapes.fidl), which each codec writes and reads, and the sums of them.
#pragma once
#include <cstdint>
#include <cstdio>
#include <cstdlib>
#include <string>

constexpr uint32_t RECORDS = 1000;  // the records of a message of the shape `records`
constexpr uint32_t BOXES = 30;      // the boxes below the first node of a message of the shape `chain`

inline std::string name_of(uint32_t i) {
  char digits[16];
  snprintf(digits, sizeof digits, "n%03u", i % 1000);
  return std::string(digits) + std::string("abcd").substr(0, i % 5);
}
inline uint16_t kind_of(uint32_t i) { return uint16_t(i * 7); }
inline uint8_t flags_of(uint32_t i) { return uint8_t(i % 251); }
inline bool active_of(uint32_t i) { return i % 3 == 0; }
inline int64_t score_of(uint32_t i) { return int64_t(i * 0x9e3779b97f4a7c15ull); }
inline bool has_extra(uint32_t i) { return i % 2 == 0; }

// The members of `wide`: m1 to m8, m9 to m14, m15 to m18.
inline uint32_t small_of(uint32_t ordinal) { return ordinal * 1000; }
inline uint64_t large_of(uint32_t ordinal) { return ordinal * 1000000ull; }
inline std::string text_of(uint32_t ordinal) { return "member number " + std::to_string(ordinal); }

// The sum, modulo 2^64, of all numbers, of bools as 0 or 1, and of the lengths of texts in bytes.
inline uint64_t sum_of_records() {
  uint64_t sum = 0;
  for (uint32_t i = 0; i < RECORDS; i++) {
    sum += i + kind_of(i) + flags_of(i) + active_of(i) + uint64_t(score_of(i)) + name_of(i).size();
    if (has_extra(i)) sum += (i + 1ull) + i;
  }
  return sum;
}
inline uint64_t sum_of_chain() { return BOXES * (BOXES + 1ull) / 2; }
inline uint64_t sum_of_wide() {
  uint64_t sum = 7 + 9 + 1;  // m19 and m20
  for (uint32_t k = 1; k <= 8; k++) sum += small_of(k);
  for (uint32_t k = 9; k <= 14; k++) sum += large_of(k);
  for (uint32_t k = 15; k <= 18; k++) sum += text_of(k).size();
  return sum;
}

// The items of `tables`: every second one has a place, and the texts have 0 to 16 bytes.
constexpr uint32_t ITEMS = 200;
inline std::string item_name_of(uint32_t i) { return std::string("a name of letters").substr(0, i % 17); }
inline bool has_place(uint32_t i) { return i % 2 == 0; }

// The choices of `unions`: the ordinals 1 to 4 in turn.
constexpr uint32_t CHOICES = 800;
inline uint32_t choice_of(uint32_t i) { return 1 + i % 4; }

// The texts of `texts`, of 0 to 40 bytes. Every eighth is of letters that have two bytes in UTF-8.
constexpr uint32_t TEXTS = 24;
inline std::string long_text_of(uint32_t k) {
  std::string all;
  for (size_t size = 5 * k % 41; all.size() < size;) all += k % 8 == 7 && all.size() + 2 <= size ? "\u00e9" : "e";
  return all;
}

// The entries of `lists`: 0 to 7 weights and 0 to 3 scores.
constexpr uint32_t ENTRIES = 500;
inline uint32_t weights_of(uint32_t i) { return i % 8; }
inline uint32_t weight_of(uint32_t i, uint32_t k) { return i * 8 + k; }
inline uint32_t scores_of(uint32_t i) { return i % 4; }

// The marks of `strict`, whose enums and bits have these values.
constexpr uint32_t MARKS = 2000;
inline uint8_t color_of(uint32_t i) {
  constexpr uint8_t COLORS[] = {1, 2, 3, 5, 8, 13, 21, 34, 55, 89, 144, 233};
  return COLORS[i % 12];
}
inline uint16_t access_of(uint32_t i) { return uint16_t((i & 7) | (i & 8) << 5 | (i & 16) << 11); }
inline int32_t level_of(uint32_t i) { return int32_t(i % 3) - 1; }

inline uint64_t sum_of_tables() {
  uint64_t sum = 0;
  for (uint32_t i = 0; i < ITEMS; i++) {
    sum += i + uint64_t(score_of(i)) + item_name_of(i).size() + kind_of(i) + active_of(i);
    if (has_place(i)) sum += (i + 1ull) + i;
  }
  return sum;
}
inline uint64_t sum_of_unions() {
  uint64_t sum = 0;
  for (uint32_t i = 0; i < CHOICES; i++) {
    if (choice_of(i) == 1) sum += i;
    if (choice_of(i) == 2) sum += uint64_t(score_of(i));
    if (choice_of(i) == 3) sum += item_name_of(i).size();
    if (choice_of(i) == 4) sum += (i + 1ull) + i;
  }
  return sum;
}
inline uint64_t sum_of_texts() {
  uint64_t sum = 0;
  for (uint32_t k = 0; k < TEXTS; k++) sum += long_text_of(k).size();
  return sum;
}
inline uint64_t sum_of_lists() {
  uint64_t sum = 0;
  for (uint32_t i = 0; i < ENTRIES; i++) {
    sum += i + name_of(i).size() + uint64_t(score_of(i));
    for (uint32_t k = 0; k < weights_of(i); k++) sum += weight_of(i, k);
    for (uint32_t k = 0; k < scores_of(i); k++) sum += uint64_t(score_of(i + k));
  }
  return sum;
}
inline uint64_t sum_of_strict() {
  uint64_t sum = 0;
  for (uint32_t i = 0; i < MARKS; i++) sum += color_of(i) + access_of(i) + active_of(i) + uint64_t(int64_t(level_of(i))) + i;
  return sum;
}

// Stops the run where something is not as it has to be.
inline void must(bool holds, const char* what) {
  if (holds) return;
  fprintf(stderr, "bench: FAILED: %s\n", what);
  exit(1);
}
