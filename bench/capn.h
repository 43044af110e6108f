// Cap'n Proto: messages of the shapes and their reading, which checks each pointer as it follows it.
#pragma once
#include <capnp/message.h>
#include <capnp/serialize.h>

#include <cstdint>
#include <string>

#include "shapes.capnp.h"
#include "values.h"

namespace capn {

inline std::string flattened(capnp::MessageBuilder& builder) {
  auto words = capnp::messageToFlatArray(builder);
  return std::string(reinterpret_cast<const char*>(words.begin()), words.asBytes().size());
}
inline kj::ArrayPtr<const capnp::word> words_of(const std::string& message) {
  return kj::arrayPtr(reinterpret_cast<const capnp::word*>(message.data()), message.size() / sizeof(capnp::word));
}

struct Records {
  static std::string make() {
    capnp::MallocMessageBuilder b(1 << 16);
    auto items = b.initRoot<cp::Records>().initItems(RECORDS);
    for (uint32_t i = 0; i < RECORDS; i++) {
      auto r = items[i];
      r.setId(i);
      r.setKind(kind_of(i));
      r.setFlags(flags_of(i));
      r.setActive(active_of(i));
      r.setScore(score_of(i));
      r.setName(name_of(i).c_str());
      if (!has_extra(i)) continue;
      auto extra = r.initExtra();
      extra.setA(i + 1ull);
      extra.setB(i);
    }
    return flattened(b);
  }
  static uint64_t read(const std::string& message) {
    capnp::FlatArrayMessageReader reader(words_of(message));
    uint64_t sum = 0;
    for (auto r : reader.getRoot<cp::Records>().getItems()) {
      sum += r.getId() + r.getKind() + r.getFlags() + r.getActive() + uint64_t(r.getScore()) + r.getName().size();
      if (!r.hasExtra()) continue;
      auto extra = r.getExtra();
      sum += extra.getA() + extra.getB();
    }
    return sum;
  }
};

struct Chain {
  static std::string make() {
    capnp::MallocMessageBuilder b(1 << 16);
    auto node = b.initRoot<cp::Node>();
    for (uint32_t i = 0; i <= BOXES; i++) {
      node.setValue(i);
      if (i < BOXES) node = node.initNext();
    }
    return flattened(b);
  }
  static uint64_t read(const std::string& message) {
    capnp::FlatArrayMessageReader reader(words_of(message));
    auto node = reader.getRoot<cp::Node>();
    for (uint64_t sum = 0;; node = node.getNext()) {
      sum += node.getValue();
      if (!node.hasNext()) return sum;
    }
  }
};

struct Wide {
  static std::string make() {
    capnp::MallocMessageBuilder b(1 << 16);
    auto w = b.initRoot<cp::Wide>();
    w.setM1(small_of(1)); w.setM2(small_of(2)); w.setM3(small_of(3)); w.setM4(small_of(4));
    w.setM5(small_of(5)); w.setM6(small_of(6)); w.setM7(small_of(7)); w.setM8(small_of(8));
    w.setM9(large_of(9)); w.setM10(large_of(10)); w.setM11(large_of(11));
    w.setM12(large_of(12)); w.setM13(large_of(13)); w.setM14(large_of(14));
    w.setM15(text_of(15).c_str()); w.setM16(text_of(16).c_str());
    w.setM17(text_of(17).c_str()); w.setM18(text_of(18).c_str());
    auto nested = w.initM19();
    nested.setA(7);
    nested.setB(9);
    w.setM20(true);
    return flattened(b);
  }
  static uint64_t read(const std::string& message) {
    capnp::FlatArrayMessageReader reader(words_of(message));
    auto w = reader.getRoot<cp::Wide>();
    uint64_t sum = uint64_t(w.getM1()) + w.getM2() + w.getM3() + w.getM4() + w.getM5() + w.getM6() + w.getM7() + w.getM8();
    sum += w.getM9() + w.getM10() + w.getM11() + w.getM12() + w.getM13() + w.getM14();
    sum += w.getM15().size() + w.getM16().size() + w.getM17().size() + w.getM18().size();
    return sum + w.getM19().getA() + w.getM19().getB() + w.getM20();
  }
};

struct Tables {
  static std::string make() {
    capnp::MallocMessageBuilder b(1 << 16);
    auto items = b.initRoot<cp::Items>().initItems(ITEMS);
    for (uint32_t i = 0; i < ITEMS; i++) {
      auto it = items[i];
      it.setId(i);
      it.setSize(uint64_t(score_of(i)));
      it.setName(item_name_of(i).c_str());
      it.setKind(kind_of(i));
      it.setActive(active_of(i));
      if (!has_place(i)) continue;
      auto place = it.initPlace();
      place.setA(i + 1ull);
      place.setB(i);
    }
    return flattened(b);
  }
  static uint64_t read(const std::string& message) {
    capnp::FlatArrayMessageReader reader(words_of(message));
    uint64_t sum = 0;
    for (auto it : reader.getRoot<cp::Items>().getItems()) {
      sum += it.getId() + it.getSize() + it.getName().size() + it.getKind() + it.getActive();
      if (!it.hasPlace()) continue;
      auto place = it.getPlace();
      sum += place.getA() + place.getB();
    }
    return sum;
  }
};

struct Unions {
  static std::string make() {
    capnp::MallocMessageBuilder b(1 << 16);
    auto items = b.initRoot<cp::Choices>().initItems(CHOICES);
    for (uint32_t i = 0; i < CHOICES; i++) {
      auto it = items[i];
      if (choice_of(i) == 1) it.setSmall(i);
      if (choice_of(i) == 2) it.setLarge(uint64_t(score_of(i)));
      if (choice_of(i) == 3) it.setName(item_name_of(i).c_str());
      if (choice_of(i) != 4) continue;
      auto place = it.initPlace();
      place.setA(i + 1ull);
      place.setB(i);
    }
    return flattened(b);
  }
  static uint64_t read(const std::string& message) {
    capnp::FlatArrayMessageReader reader(words_of(message));
    uint64_t sum = 0;
    for (auto it : reader.getRoot<cp::Choices>().getItems()) {
      if (it.isSmall()) sum += it.getSmall();
      if (it.isLarge()) sum += it.getLarge();
      if (it.isName()) sum += it.getName().size();
      if (it.isPlace()) sum += it.getPlace().getA() + it.getPlace().getB();
    }
    return sum;
  }
};

struct Texts {
  static std::string make() {
    capnp::MallocMessageBuilder b(1 << 16);
    auto it = b.initRoot<cp::Texts>();
    it.setT0(long_text_of(0).c_str());
    it.setT1(long_text_of(1).c_str());
    it.setT2(long_text_of(2).c_str());
    it.setT3(long_text_of(3).c_str());
    it.setT4(long_text_of(4).c_str());
    it.setT5(long_text_of(5).c_str());
    it.setT6(long_text_of(6).c_str());
    it.setT7(long_text_of(7).c_str());
    it.setT8(long_text_of(8).c_str());
    it.setT9(long_text_of(9).c_str());
    it.setT10(long_text_of(10).c_str());
    it.setT11(long_text_of(11).c_str());
    it.setT12(long_text_of(12).c_str());
    it.setT13(long_text_of(13).c_str());
    it.setT14(long_text_of(14).c_str());
    it.setT15(long_text_of(15).c_str());
    it.setT16(long_text_of(16).c_str());
    it.setT17(long_text_of(17).c_str());
    it.setT18(long_text_of(18).c_str());
    it.setT19(long_text_of(19).c_str());
    it.setT20(long_text_of(20).c_str());
    it.setT21(long_text_of(21).c_str());
    it.setT22(long_text_of(22).c_str());
    it.setT23(long_text_of(23).c_str());
    return flattened(b);
  }
  static uint64_t read(const std::string& message) {
    capnp::FlatArrayMessageReader reader(words_of(message));
    auto it = reader.getRoot<cp::Texts>();
    uint64_t sum = 0;
    sum += it.getT0().size() + it.getT1().size() + it.getT2().size() + it.getT3().size() + it.getT4().size() + it.getT5().size();
    sum += it.getT6().size() + it.getT7().size() + it.getT8().size() + it.getT9().size() + it.getT10().size() + it.getT11().size();
    sum += it.getT12().size() + it.getT13().size() + it.getT14().size() + it.getT15().size() + it.getT16().size() + it.getT17().size();
    sum += it.getT18().size() + it.getT19().size() + it.getT20().size() + it.getT21().size() + it.getT22().size() + it.getT23().size();
    return sum;
  }
};

struct Lists {
  static std::string make() {
    capnp::MallocMessageBuilder b(1 << 16);
    auto items = b.initRoot<cp::Lists>().initItems(ENTRIES);
    for (uint32_t i = 0; i < ENTRIES; i++) {
      auto it = items[i];
      it.setId(i);
      auto weights = it.initWeights(weights_of(i));
      for (uint32_t k = 0; k < weights_of(i); k++) weights.set(k, weight_of(i, k));
      auto scores = it.initScores(scores_of(i));
      for (uint32_t k = 0; k < scores_of(i); k++) scores.set(k, score_of(i + k));
      it.setName(name_of(i).c_str());
      it.setLast(uint64_t(score_of(i)));
    }
    return flattened(b);
  }
  static uint64_t read(const std::string& message) {
    capnp::FlatArrayMessageReader reader(words_of(message));
    uint64_t sum = 0;
    for (auto it : reader.getRoot<cp::Lists>().getItems()) {
      sum += it.getId() + it.getName().size() + it.getLast();
      for (uint32_t weight : it.getWeights()) sum += weight;
      for (int64_t score : it.getScores()) sum += uint64_t(score);
    }
    return sum;
  }
};

struct Strict {
  static std::string make() {
    capnp::MallocMessageBuilder b(1 << 16);
    auto items = b.initRoot<cp::Marks>().initItems(MARKS);
    for (uint32_t i = 0; i < MARKS; i++) {
      auto it = items[i];
      it.setColor(color_of(i));
      it.setAccess(access_of(i));
      it.setReady(active_of(i));
      it.setLevel(level_of(i));
      it.setNumber(i);
    }
    return flattened(b);
  }
  static uint64_t read(const std::string& message) {
    capnp::FlatArrayMessageReader reader(words_of(message));
    uint64_t sum = 0;
    for (auto it : reader.getRoot<cp::Marks>().getItems())
      sum += it.getColor() + it.getAccess() + it.getReady() + uint64_t(int64_t(it.getLevel())) + it.getNumber();
    return sum;
  }
};

}  // namespace capn
