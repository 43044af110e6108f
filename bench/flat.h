// FlatBuffers: messages of the shapes, built from plain structs, their verification and their reading.
#pragma once
#include <cstdint>
#include <string>
#include <vector>

#include "plain.h"
#include "shapes_generated.h"
#include "values.h"

namespace flat {

// The message that a builder has finished.
inline std::string finished(const flatbuffers::FlatBufferBuilder& b) {
  return std::string(reinterpret_cast<const char*>(b.GetBufferPointer()), b.GetSize());
}

// The message of a value, built by a builder of its own.
template <class Shape>
std::string message_of(const typename Shape::Plain& value) {
  flatbuffers::FlatBufferBuilder builder;
  Shape::build(builder, value);
  return finished(builder);
}

// Whether the message is right: bounds, offsets, required fields and the ends of texts.
template <class Root>
bool verifies(const std::string& message) {
  flatbuffers::Verifier verifier(reinterpret_cast<const uint8_t*>(message.data()), message.size());
  return verifier.VerifyBuffer<Root>(nullptr);
}

struct Records {
  using Root = fb::Records;
  using Plain = plain::Records;
  static Plain value() { return plain::records(); }
  static void build(flatbuffers::FlatBufferBuilder& b, const Plain& all) {
    std::vector<flatbuffers::Offset<fb::Record>> items;
    items.reserve(all.items.size());
    for (const plain::Record& r : all.items) {
      auto name = b.CreateString(r.name);
      flatbuffers::Offset<fb::Nested> extra = r.has_extra ? fb::CreateNested(b, r.extra.a, r.extra.b) : 0;
      items.push_back(fb::CreateRecord(b, r.id, r.kind, r.flags, r.active, r.score, name, extra));
    }
    b.Finish(fb::CreateRecords(b, b.CreateVector(items)));
  }
  static uint64_t read(const std::string& message) {
    uint64_t sum = 0;
    for (auto r : *flatbuffers::GetRoot<Root>(message.data())->items()) {
      sum += r->id() + r->kind() + r->flags() + r->active() + uint64_t(r->score()) + r->name()->size();
      if (auto extra = r->extra()) sum += extra->a() + extra->b();
    }
    return sum;
  }
};

struct Chain {
  using Root = fb::Node;
  using Plain = plain::Chain;
  static Plain value() { return plain::chain(); }
  static void build(flatbuffers::FlatBufferBuilder& b, const Plain& all) {
    flatbuffers::Offset<fb::Node> node = 0;
    for (size_t i = all.values.size(); i-- > 0;) node = fb::CreateNode(b, all.values[i], node);
    b.Finish(node);
  }
  static uint64_t read(const std::string& message) {
    uint64_t sum = 0;
    for (auto node = flatbuffers::GetRoot<Root>(message.data()); node; node = node->next()) sum += node->value();
    return sum;
  }
};

struct Wide {
  using Root = fb::Wide;
  using Plain = plain::Wide;
  static Plain value() { return plain::wide(); }
  static void build(flatbuffers::FlatBufferBuilder& b, const Plain& w) {
    flatbuffers::Offset<flatbuffers::String> texts[4];
    for (uint32_t k = 0; k < 4; k++) texts[k] = b.CreateString(w.texts[k]);
    auto nested = fb::CreateNested(b, w.nested.a, w.nested.b);
    b.Finish(fb::CreateWide(b, w.small[0], w.small[1], w.small[2], w.small[3], w.small[4], w.small[5], w.small[6], w.small[7],
                            w.large[0], w.large[1], w.large[2], w.large[3], w.large[4], w.large[5], texts[0], texts[1],
                            texts[2], texts[3], nested, w.truth));
  }
  static uint64_t read(const std::string& message) {
    auto w = flatbuffers::GetRoot<Root>(message.data());
    uint64_t sum = uint64_t(w->m1()) + w->m2() + w->m3() + w->m4() + w->m5() + w->m6() + w->m7() + w->m8();
    sum += w->m9() + w->m10() + w->m11() + w->m12() + w->m13() + w->m14();
    sum += w->m15()->size() + w->m16()->size() + w->m17()->size() + w->m18()->size();
    return sum + w->m19()->a() + w->m19()->b() + w->m20();
  }
};

struct Tables {
  using Root = fb::Items;
  static std::string make() {
    flatbuffers::FlatBufferBuilder b;
    std::vector<flatbuffers::Offset<fb::Item>> items;
    for (uint32_t i = 0; i < ITEMS; i++) {
      auto name = b.CreateString(item_name_of(i));
      flatbuffers::Offset<fb::Nested> place = has_place(i) ? fb::CreateNested(b, i + 1ull, i) : 0;
      items.push_back(fb::CreateItem(b, i, uint64_t(score_of(i)), name, kind_of(i), place, active_of(i)));
    }
    b.Finish(fb::CreateItems(b, b.CreateVector(items)));
    return finished(b);
  }
  static uint64_t read(const std::string& message) {
    uint64_t sum = 0;
    for (auto it : *flatbuffers::GetRoot<Root>(message.data())->items()) {
      sum += it->id() + it->size() + it->name()->size() + it->kind() + it->active();
      if (auto place = it->place()) sum += place->a() + place->b();
    }
    return sum;
  }
};

struct Unions {
  using Root = fb::Choices;
  static flatbuffers::Offset<void> choice(flatbuffers::FlatBufferBuilder& b, uint32_t i) {
    if (choice_of(i) == 1) return fb::CreateSmall(b, i).Union();
    if (choice_of(i) == 2) return fb::CreateLarge(b, uint64_t(score_of(i))).Union();
    if (choice_of(i) == 3) return fb::CreateName(b, b.CreateString(item_name_of(i))).Union();
    return fb::CreateNested(b, i + 1ull, i).Union();
  }
  static std::string make() {
    flatbuffers::FlatBufferBuilder b;
    std::vector<flatbuffers::Offset<fb::Chosen>> items;
    for (uint32_t i = 0; i < CHOICES; i++) {
      auto it = choice(b, i);
      items.push_back(fb::CreateChosen(b, fb::Choice(choice_of(i)), it));
    }
    b.Finish(fb::CreateChoices(b, b.CreateVector(items)));
    return finished(b);
  }
  static uint64_t read(const std::string& message) {
    uint64_t sum = 0;
    for (auto it : *flatbuffers::GetRoot<Root>(message.data())->items()) {
      if (auto small = it->choice_as_Small()) sum += small->value();
      if (auto large = it->choice_as_Large()) sum += large->value();
      if (auto name = it->choice_as_Name()) sum += name->value()->size();
      if (auto place = it->choice_as_Nested()) sum += place->a() + place->b();
    }
    return sum;
  }
};

struct Texts {
  using Root = fb::Texts;
  static std::string make() {
    flatbuffers::FlatBufferBuilder b;
    std::vector<flatbuffers::Offset<flatbuffers::String>> t;
    for (uint32_t k = 0; k < TEXTS; k++) t.push_back(b.CreateString(long_text_of(k)));
    b.Finish(fb::CreateTexts(b, t[0], t[1], t[2], t[3], t[4], t[5], t[6], t[7], t[8], t[9], t[10], t[11], t[12], t[13], t[14],
                             t[15], t[16], t[17], t[18], t[19], t[20], t[21], t[22], t[23]));
    return finished(b);
  }
  static uint64_t read(const std::string& message) {
    auto it = flatbuffers::GetRoot<Root>(message.data());
    uint64_t sum = it->t0()->size() + it->t1()->size() + it->t2()->size() + it->t3()->size() + it->t4()->size() + it->t5()->size();
    sum += it->t6()->size() + it->t7()->size() + it->t8()->size() + it->t9()->size() + it->t10()->size() + it->t11()->size();
    sum += it->t12()->size() + it->t13()->size() + it->t14()->size() + it->t15()->size() + it->t16()->size() + it->t17()->size();
    sum += it->t18()->size() + it->t19()->size() + it->t20()->size() + it->t21()->size() + it->t22()->size() + it->t23()->size();
    return sum;
  }
};

struct Lists {
  using Root = fb::Lists;
  static std::string make() {
    flatbuffers::FlatBufferBuilder b;
    std::vector<flatbuffers::Offset<fb::Entry>> items;
    for (uint32_t i = 0; i < ENTRIES; i++) {
      std::vector<uint32_t> weights;
      std::vector<int64_t> scores;
      for (uint32_t k = 0; k < weights_of(i); k++) weights.push_back(weight_of(i, k));
      for (uint32_t k = 0; k < scores_of(i); k++) scores.push_back(score_of(i + k));
      auto made = b.CreateVector(weights);
      auto next = b.CreateVector(scores);
      items.push_back(fb::CreateEntry(b, i, made, next, b.CreateString(name_of(i)), uint64_t(score_of(i))));
    }
    b.Finish(fb::CreateLists(b, b.CreateVector(items)));
    return finished(b);
  }
  static uint64_t read(const std::string& message) {
    uint64_t sum = 0;
    for (auto it : *flatbuffers::GetRoot<Root>(message.data())->items()) {
      sum += it->id() + it->name()->size() + it->last();
      for (uint32_t weight : *it->weights()) sum += weight;
      for (int64_t score : *it->scores()) sum += uint64_t(score);
    }
    return sum;
  }
};

struct Strict {
  using Root = fb::Marks;
  static std::string make() {
    flatbuffers::FlatBufferBuilder b;
    std::vector<fb::Mark> items;
    for (uint32_t i = 0; i < MARKS; i++)
      items.push_back(fb::Mark(fb::Color(color_of(i)), access_of(i), active_of(i), fb::Level(level_of(i)), i));
    b.Finish(fb::CreateMarks(b, b.CreateVectorOfStructs(items)));
    return finished(b);
  }
  static uint64_t read(const std::string& message) {
    uint64_t sum = 0;
    for (auto it : *flatbuffers::GetRoot<Root>(message.data())->items())
      sum += it->color() + it->access() + it->ready() + uint64_t(int64_t(it->level())) + it->number();
    return sum;
  }
};

}  // namespace flat
