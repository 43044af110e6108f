// A line of the bench: what one operation of one codec takes for a message, in nanoseconds, and how
// often it allocates.
#pragma once
#include <algorithm>
#include <chrono>
#include <cstddef>
#include <cstdint>
#include <cstdio>
#include <functional>
#include <string>

// How often malloc, calloc and realloc were called, by anything in this process (allocations.cc).
extern uint64_t allocations;

// Does an operation for one message so many times, and gives the sum of what it read, so that the
// compiler keeps the work.
using Operation = std::function<uint64_t(uint64_t times)>;

// Does work for one message so many times. What lies in memory counts as changed between two times,
// so that no work is moved out of the loop.
template <class Work>
Operation each(Work work) {
  return [work](uint64_t times) {
    uint64_t sum = 0;
    for (uint64_t i = 0; i < times; i++) {
      sum += work();
      asm volatile("" : : : "memory");
    }
    return sum;
  };
}

// A message that each pass reads as a fresh copy, as the decoder has to, which writes into its own.
class Fresh {
 public:
  explicit Fresh(const std::string& from) : from_(from), copy_(from) {}
  const std::string& copied() {
    std::copy(from_.begin(), from_.end(), copy_.begin());
    asm volatile("" : : "r"(copy_.data()) : "memory");
    return copy_;
  }

 private:
  const std::string& from_;
  std::string copy_;
};

inline volatile uint64_t sink;

inline double nanoseconds(const Operation& operation, uint64_t times) {
  auto from = std::chrono::steady_clock::now();
  sink = operation(times);
  return std::chrono::duration<double, std::nano>(std::chrono::steady_clock::now() - from).count();
}

// The best of seven runs of at least 60 ms each, in nanoseconds for a message.
inline double best_of_runs(const Operation& operation) {
  constexpr double SHORTEST = 60e6;
  uint64_t times = 1;
  double best = 1e300;
  for (int runs = 0; runs < 7;) {
    double took = nanoseconds(operation, times);
    if (took < SHORTEST) {
      times = std::max<uint64_t>(times * 2, uint64_t(times * 1.1 * SHORTEST / std::max(took, 1.0)));
      runs = 0;
      best = 1e300;
      continue;
    }
    best = std::min(best, took / times);
    runs++;
  }
  return best;
}

// How often a message more allocates: the difference of 1,001 messages and one, so that what is made
// once for a run does not count.
inline double allocations_a_message(const Operation& operation) {
  uint64_t before = allocations;
  sink = operation(1);
  uint64_t once = allocations - before;
  before = allocations;
  sink = operation(1001);
  return double(allocations - before - once) / 1000;
}

struct Printer {
  const char* only;  // prints only the lines in which this word stands, if there is one
  uint64_t times;    // where not 0: prints no line, and does what the one of this very name measures so many times

  void line(const std::string& shape, const std::string& codec, const std::string& what, size_t bytes,
            const Operation& operation) const {
    std::string name = shape + " " + codec + " " + what;
    if (times) {
      if (name == only) sink = operation(times);
      return;
    }
    if (only && name.find(only) == std::string::npos) return;
    double best = best_of_runs(operation);
    printf("%-8s %-12s %-24s %7zu %12.1f %12.3f\n", shape.c_str(), codec.c_str(), what.c_str(), bytes, best,
           allocations_a_message(operation));
    fflush(stdout);
  }
};
