// Windows of events: those of the C surface and the class, against lists of samples.
#include <cstring>
#include <deque>
#include <vector>

#include "det/exec/event_window.h"
#include "answers.h"
#include "check.h"
#include "reference.h"

using namespace det::exec;

namespace {

bool Shows(EventWindow const& window, std::vector<std::int64_t> const& wanted) {
  return std::vector<std::int64_t>(window.begin(), window.end()) == wanted &&
         window.size() == wanted.size() && window.empty() == wanted.empty() &&
         (wanted.empty() ? !window.Newest() : window.Newest() == wanted.back());
}

EventWindow Made(std::uint16_t capacity, WindowPolicy policy) {
  return EventWindow::Create(capacity, policy).Value();
}

void AWindowOfTheLast() {
  EventWindow window = Made(3, WindowPolicy::kLast);
  CHECK(Shows(window, {}));
  CHECK(window.Arrive(10) && window.Arrive(20));
  CHECK(Shows(window, {}));  // a cycle doesn't see its own samples
  window.Turn();
  CHECK(Shows(window, {10, 20}));
  window.Turn();
  CHECK(Shows(window, {10, 20}));
  CHECK(window.Arrive(30) && window.Arrive(40));
  window.Turn();
  CHECK(Shows(window, {20, 30, 40}));
  for (std::int64_t k = 1; k <= 5; ++k) CHECK(window.Arrive(k));
  window.Turn();
  CHECK(Shows(window, {3, 4, 5}));
}

void AWindowOfFreshOnes() {
  EventWindow window = Made(2, WindowPolicy::kFresh);
  CHECK(window.Arrive(10));
  window.Turn();
  CHECK(Shows(window, {10}));
  for (std::int64_t k = 1; k <= 3; ++k) CHECK(window.Arrive(k));
  CHECK(Shows(window, {10}));
  window.Turn();
  CHECK(Shows(window, {2, 3}));
  window.Turn();
  CHECK(Shows(window, {}));
}

/// What a window shows after all rounds so far, by the words of docs/FORMATS.md.
struct Model {
  std::size_t capacity;
  WindowPolicy policy;
  std::deque<std::int64_t> all, round;

  void Turn() {
    if (policy == WindowPolicy::kFresh) all.clear();
    all.insert(all.end(), round.begin(), round.end());
    while (all.size() > capacity) all.pop_front();
    round.clear();
  }
};

void ManyRounds() {
  reference::SplitMix64 chosen{1};
  constexpr std::uint16_t kCapacities[] = {1, 2, 3, 7, 64, 1023, 1024};
  for (std::uint16_t capacity : kCapacities) {
    for (WindowPolicy policy : {WindowPolicy::kLast, WindowPolicy::kFresh}) {
      EventWindow window = Made(capacity, policy);
      Model model{capacity, policy, {}, {}};
      for (int round = 0; round < 60; ++round) {
        std::uint64_t const arrivals = chosen.Next() % (capacity * 3u) * (chosen.Next() % 2);
        for (std::uint64_t k = 0; k < arrivals; ++k) {
          auto const value = static_cast<std::int64_t>(chosen.Next() % 2000001) - 1000000;
          CHECK(window.Arrive(value));
          model.round.push_back(value);
        }
        window.Turn();
        model.Turn();
        CHECK(Shows(window, {model.all.begin(), model.all.end()}));
      }
    }
  }
}

void TheLimits() {
  CHECK(Refuses(EventWindow::Create(0), DeterministicErrc::kBadWindow));
  CHECK(Refuses(EventWindow::Create(1025), DeterministicErrc::kBadWindow));
  CHECK(EventWindow::Create(1024).HasValue());
  EventWindow window = Made(1, WindowPolicy::kLast);
  CHECK(window.Arrive(1000000000000) && window.Arrive(-1000000000000));
  CHECK(Refuses(window.Arrive(1000000000001), DeterministicErrc::kBadSample));
  CHECK(Refuses(window.Arrive(-1000000000001), DeterministicErrc::kBadSample));
  CHECK(Refuses(window.Arrive(INT64_MIN), DeterministicErrc::kBadSample));
  window.Turn();
  CHECK(Shows(window, {-1000000000000}));
}

/// Whether both calls refuse a window, and leave it and its places as they are.
bool Refused(DetWindow window, std::size_t count) {
  std::vector<std::int64_t> places(4, 5), before = places;
  DetWindow const kept = window;
  bool const refused = !det_window_arrive(&window, places.data(), count, 1) &&
                       !det_window_turn(&window, places.data(), count);
  return refused && places == before && kept.capacity == window.capacity &&
         kept.seen == window.seen && kept.arriving == window.arriving &&
         kept.policy == window.policy;
}

void WhatDoesNotFit() {
  DetWindow window{2, 1, 1, 0};
  CHECK(Refused(window, 3));                    // fewer places than two times the capacity
  CHECK(Refused(DetWindow{2, 3, 0, 0}, 4));     // more seen than the capacity
  CHECK(Refused(DetWindow{2, 0, 3, 0}, 4));     // more arriving than the capacity
  CHECK(Refused(DetWindow{2, 0, 0, 2}, 4));     // no policy
  CHECK(Refused(DetWindow{0, 0, 0, 0}, 4));     // no capacity
  CHECK(Refused(DetWindow{1025, 0, 0, 0}, 4));  // too great a capacity
  std::int64_t places[4] = {};
  CHECK(det_window_arrive(&window, places, 4, 1) && det_window_turn(&window, places, 4));
  DetWindow kept = window;
  CHECK(!det_window_new(&window, 0, 0) && !det_window_new(&window, 1, 2));
  CHECK(kept.capacity == window.capacity && kept.seen == window.seen);
}

}  // namespace

int main() {
  check::Test("windows: policy last, by hand", AWindowOfTheLast);
  check::Test("windows: policy fresh, by hand", AWindowOfFreshOnes);
  check::Test("windows: 60 rounds of chance for capacities 1 to 1,024", ManyRounds);
  check::Test("windows: capacities and samples out of range", TheLimits);
  check::Test("windows: the C surface refuses what doesn't fit, and changes nothing",
              WhatDoesNotFit);
  return check::Status();
}
