// protobuf: messages of the shapes, their parsing into a message that is used again, and their reading.
#pragma once
#include <cstdint>
#include <string>

#include "shapes.pb.h"
#include "values.h"

namespace proto {

struct Records {
  using Message = pb::Records;
  static std::string make() {
    Message message;
    for (uint32_t i = 0; i < RECORDS; i++) {
      auto r = message.add_items();
      r->set_id(i);
      r->set_kind(kind_of(i));
      r->set_flags(flags_of(i));
      r->set_active(active_of(i));
      r->set_score(score_of(i));
      r->set_name(name_of(i));
      if (!has_extra(i)) continue;
      r->mutable_extra()->set_a(i + 1ull);
      r->mutable_extra()->set_b(i);
    }
    return message.SerializeAsString();
  }
  static uint64_t read(const Message& message) {
    uint64_t sum = 0;
    for (auto& r : message.items()) {
      sum += r.id() + r.kind() + r.flags() + r.active() + uint64_t(r.score()) + r.name().size();
      if (r.has_extra()) sum += r.extra().a() + r.extra().b();
    }
    return sum;
  }
};

struct Chain {
  using Message = pb::Node;
  static std::string make() {
    Message first;
    Message* node = &first;
    for (uint32_t i = 0; i <= BOXES; i++) {
      node->set_value(i);
      if (i < BOXES) node = node->mutable_next();
    }
    return first.SerializeAsString();
  }
  static uint64_t read(const Message& first) {
    uint64_t sum = 0;
    for (const Message* node = &first;; node = &node->next()) {
      sum += node->value();
      if (!node->has_next()) return sum;
    }
  }
};

struct Wide {
  using Message = pb::Wide;
  static std::string make() {
    Message w;
    w.set_m1(small_of(1)); w.set_m2(small_of(2)); w.set_m3(small_of(3)); w.set_m4(small_of(4));
    w.set_m5(small_of(5)); w.set_m6(small_of(6)); w.set_m7(small_of(7)); w.set_m8(small_of(8));
    w.set_m9(large_of(9)); w.set_m10(large_of(10)); w.set_m11(large_of(11));
    w.set_m12(large_of(12)); w.set_m13(large_of(13)); w.set_m14(large_of(14));
    w.set_m15(text_of(15)); w.set_m16(text_of(16)); w.set_m17(text_of(17)); w.set_m18(text_of(18));
    w.mutable_m19()->set_a(7);
    w.mutable_m19()->set_b(9);
    w.set_m20(true);
    return w.SerializeAsString();
  }
  static uint64_t read(const Message& w) {
    uint64_t sum = uint64_t(w.m1()) + w.m2() + w.m3() + w.m4() + w.m5() + w.m6() + w.m7() + w.m8();
    sum += w.m9() + w.m10() + w.m11() + w.m12() + w.m13() + w.m14();
    sum += w.m15().size() + w.m16().size() + w.m17().size() + w.m18().size();
    return sum + w.m19().a() + w.m19().b() + w.m20();
  }
};

struct Tables {
  using Message = pb::Items;
  static std::string make() {
    Message message;
    for (uint32_t i = 0; i < ITEMS; i++) {
      auto it = message.add_items();
      it->set_id(i);
      it->set_size(uint64_t(score_of(i)));
      it->set_name(item_name_of(i));
      it->set_kind(kind_of(i));
      it->set_active(active_of(i));
      if (!has_place(i)) continue;
      it->mutable_place()->set_a(i + 1ull);
      it->mutable_place()->set_b(i);
    }
    return message.SerializeAsString();
  }
  static uint64_t read(const Message& message) {
    uint64_t sum = 0;
    for (auto& it : message.items()) {
      sum += it.id() + it.size() + it.name().size() + it.kind() + it.active();
      if (it.has_place()) sum += it.place().a() + it.place().b();
    }
    return sum;
  }
};

struct Unions {
  using Message = pb::Choices;
  static std::string make() {
    Message message;
    for (uint32_t i = 0; i < CHOICES; i++) {
      auto it = message.add_items();
      if (choice_of(i) == 1) it->set_small(i);
      if (choice_of(i) == 2) it->set_large(uint64_t(score_of(i)));
      if (choice_of(i) == 3) it->set_name(item_name_of(i));
      if (choice_of(i) != 4) continue;
      it->mutable_place()->set_a(i + 1ull);
      it->mutable_place()->set_b(i);
    }
    return message.SerializeAsString();
  }
  static uint64_t read(const Message& message) {
    uint64_t sum = 0;
    for (auto& it : message.items()) {
      sum += it.small() + it.large() + it.name().size();
      if (it.has_place()) sum += it.place().a() + it.place().b();
    }
    return sum;
  }
};

struct Texts {
  using Message = pb::Texts;
  static std::string make() {
    Message it;
    it.set_t0(long_text_of(0));
    it.set_t1(long_text_of(1));
    it.set_t2(long_text_of(2));
    it.set_t3(long_text_of(3));
    it.set_t4(long_text_of(4));
    it.set_t5(long_text_of(5));
    it.set_t6(long_text_of(6));
    it.set_t7(long_text_of(7));
    it.set_t8(long_text_of(8));
    it.set_t9(long_text_of(9));
    it.set_t10(long_text_of(10));
    it.set_t11(long_text_of(11));
    it.set_t12(long_text_of(12));
    it.set_t13(long_text_of(13));
    it.set_t14(long_text_of(14));
    it.set_t15(long_text_of(15));
    it.set_t16(long_text_of(16));
    it.set_t17(long_text_of(17));
    it.set_t18(long_text_of(18));
    it.set_t19(long_text_of(19));
    it.set_t20(long_text_of(20));
    it.set_t21(long_text_of(21));
    it.set_t22(long_text_of(22));
    it.set_t23(long_text_of(23));
    return it.SerializeAsString();
  }
  static uint64_t read(const Message& it) {
    uint64_t sum = 0;
    sum += it.t0().size() + it.t1().size() + it.t2().size() + it.t3().size() + it.t4().size() + it.t5().size() + it.t6().size() + it.t7().size();
    sum += it.t8().size() + it.t9().size() + it.t10().size() + it.t11().size() + it.t12().size() + it.t13().size() + it.t14().size() + it.t15().size();
    sum += it.t16().size() + it.t17().size() + it.t18().size() + it.t19().size() + it.t20().size() + it.t21().size() + it.t22().size() + it.t23().size();
    return sum;
  }
};

struct Lists {
  using Message = pb::Lists;
  static std::string make() {
    Message message;
    for (uint32_t i = 0; i < ENTRIES; i++) {
      auto it = message.add_items();
      it->set_id(i);
      for (uint32_t k = 0; k < weights_of(i); k++) it->add_weights(weight_of(i, k));
      for (uint32_t k = 0; k < scores_of(i); k++) it->add_scores(score_of(i + k));
      it->set_name(name_of(i));
      it->set_last(uint64_t(score_of(i)));
    }
    return message.SerializeAsString();
  }
  static uint64_t read(const Message& message) {
    uint64_t sum = 0;
    for (auto& it : message.items()) {
      sum += it.id() + it.name().size() + it.last();
      for (uint32_t weight : it.weights()) sum += weight;
      for (int64_t score : it.scores()) sum += uint64_t(score);
    }
    return sum;
  }
};

struct Strict {
  using Message = pb::Marks;
  static std::string make() {
    Message message;
    for (uint32_t i = 0; i < MARKS; i++) {
      auto it = message.add_items();
      it->set_color(color_of(i));
      it->set_access(access_of(i));
      it->set_ready(active_of(i));
      it->set_level(level_of(i));
      it->set_number(i);
    }
    return message.SerializeAsString();
  }
  static uint64_t read(const Message& message) {
    uint64_t sum = 0;
    for (auto& it : message.items())
      sum += it.color() + it.access() + it.ready() + uint64_t(int64_t(it.level())) + it.number();
    return sum;
  }
};

}  // namespace proto
