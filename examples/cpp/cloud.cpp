// The job `cloud` of det (docs/FORMATS.md) as an application's job, with two passes and an element
// of three numbers. Its records are those of `det record`, byte for byte:
//
//     cloud record ../cloud.toml ../cloud.stim > cloud.rec
#include <algorithm>
#include <cstdlib>
#include <optional>

#include "det/exec/application.h"

using namespace det::exec;

constexpr std::int64_t kLimit = 1000000000000;

struct Particle {
  std::uint32_t number;
  std::int64_t x, y;
};

struct Finished {
  std::uint32_t cycles = 0;
};

/// The particle nearest to a target so far; of two that are as near, the first.
struct Nearest {
  std::uint64_t distance = ~std::uint64_t{0};
  Particle particle{};

  void Take(Nearest const& other) {
    if (other.distance < distance) *this = other;
  }
};

struct Target {
  std::int64_t x, y;

  Nearest NearestOf(Particle const& particle) const {
    return {static_cast<std::uint64_t>(std::abs(particle.x - x)) +
                static_cast<std::uint64_t>(std::abs(particle.y - y)),
            particle};
  }
};

/// A random step, by random numbers that the compiler inlines.
class Wander {
 public:
  explicit Wander(std::int64_t spread) : spread_(spread) {}

  void operator()(Particle& particle, InlineWorkerThread& thread) const {
    for (int tries = 0; tries < 8; ++tries) {
      std::int64_t const dx = Step(thread), dy = Step(thread);
      if (dx * dx + dy * dy > spread_ * spread_) continue;
      particle.x = std::clamp(particle.x + dx, -kLimit, kLimit);
      particle.y = std::clamp(particle.y + dy, -kLimit, kLimit);
      return;
    }
  }

 private:
  std::int64_t Step(InlineWorkerThread& thread) const {
    auto const span = static_cast<std::uint64_t>(2 * spread_ + 1);
    return static_cast<std::int64_t>(thread.GetRandom() % span) - spread_;
  }

  std::int64_t spread_;
};

/// An eighth, rounded down.
std::int64_t Eighth(std::int64_t value) { return value / 8 - (value % 8 < 0 ? 1 : 0); }

class Cloud final : public Job<Particle, Finished> {
 public:
  static constexpr char const* kName = "cloud";
  static constexpr std::uint16_t kNumber = 2;

  explicit Cloud(Parameters& params)
      : count_(params.Take("particles", 1, 65536)),
        spread_(params.Take("spread", 1, 1000000)),
        reseed_(params.Take("reseed", 0, 1000000)),
        far_(params.Take("far", 0, 4 * kLimit)) {}

  void Init(Start<Cloud>& start) const {
    std::uint32_t number = 0;
    for (Particle& each : start.Resize(static_cast<std::size_t>(count_))) each = {number++, 0, 0};
    start.ReserveElement(20);
    start.ReserveOutput(32);
  }

  void Run(Cycle<Cloud>& cycle) const {
    if (cycle.Newest(2).value_or(0) < 0) return cycle.Refuse(1);
    if (reseed_ != 0 && cycle.Number() % reseed_ == 0) cycle.SetRandomSeed(cycle.GetRandom());
    Target const target{cycle.Newest(0).value_or(0), cycle.Newest(1).value_or(0)};
    auto const leader = NearestAfter(cycle, target, Wander(spread_));
    if (!leader) return;
    auto const pull = [to = leader->particle](Particle& particle, InlineWorkerThread& thread) {
      if (thread.GetRandom() % 8 == 0) return;
      particle.x += Eighth(to.x - particle.x);
      particle.y += Eighth(to.y - particle.y);
    };
    auto const nearest = NearestAfter(cycle, target, pull);
    if (!nearest) return;
    auto const [distance, particle] = *nearest;
    if (distance > static_cast<std::uint64_t>(far_)) return cycle.Refuse(2);
    cycle.Output().U32(particle.number).I64(particle.x).I64(particle.y).U64(distance).U32(
        ++cycle.State().cycles);
  }

  static void Spell(Particle const& particle, ElementSpelling& out) {
    out.U32(particle.number).I64(particle.x).I64(particle.y);
  }

 private:
  /// Runs a pass, and finds the particle that is then nearest.
  template <typename Move>
  static std::optional<Nearest> NearestAfter(Cycle<Cloud>& cycle, Target const& target,
                                             Move const& move) {
    return cycle.Fold(
        Nearest{},
        [&target, &move](Particle& particle, InlineWorkerThread& thread, Nearest& part) {
          move(particle, thread);
          part.Take(target.NearestOf(particle));
        },
        [](Nearest& all, Nearest const& part) { all.Take(part); });
  }

  std::int64_t count_, spread_, reseed_, far_;
};

int main(int count, char** arguments) { return Main<Cloud>(count, arguments); }
