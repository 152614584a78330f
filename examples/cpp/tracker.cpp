// A tracker: a thousand guesses follow a distance that a sensor measures, each with a random step.
// A negative distance is noise, and the cycle is refused.
//
//     tracker record tracker.toml tracker.stim > tracker.rec      tracker check tracker.rec
//     tracker live tracker.toml > drive.rec                       tracker replay drive.rec
#include <numeric>

#include "det/exec/application.h"

using namespace det::exec;

class Tracker final : public Job<std::int64_t> {
 public:
  static constexpr char const* kName = "tracker";
  static constexpr std::uint16_t kNumber = 77;

  explicit Tracker(Parameters& params) : guesses_(params.Take("guesses", 1, 65536)) {}

  void Init(Start<Tracker>& start) const { start.Resize(static_cast<std::size_t>(guesses_)); }

  void Run(Cycle<Tracker>& cycle) const {
    std::int64_t const measured = cycle.Newest(0).value_or(0);
    if (measured < 0) return cycle.Refuse(1);
    bool const done = cycle.Pass([&](std::int64_t& guess, WorkerThread& thread) {
      std::int64_t const step = static_cast<std::int64_t>(thread.GetRandom() % 201) - 100;
      guess += (measured - guess) / 8 + step;
    });
    if (!done) return;
    auto const guesses = cycle.Elements();
    cycle.Output().I64(std::accumulate(guesses.begin(), guesses.end(), std::int64_t{0}) / guesses_);
  }

 private:
  std::int64_t guesses_;
};

/// The sensor, read at each tick of a timer; 50 ticks.
class Sensor final : public TimerSource {
 public:
  explicit Sensor(std::uint64_t cycle_time) : TimerSource(cycle_time, 50) {}
  void Arrived(Arrivals& arrivals) override { arrivals.Add(0, 1000 * (++ticks_ % 20)); }

 private:
  std::int64_t ticks_ = 0;
};

int main(int count, char** arguments) { return Main<Tracker, Sensor>(count, arguments); }
