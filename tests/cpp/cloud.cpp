// The job `cloud` (docs/FORMATS.md) as an application with a loop of its own. Its record is to be
// the one that `det record` writes, byte for byte.
//
//     cloud STIMULUS SEED WORKERS COUNT SPREAD RESEED FAR
#include <algorithm>
#include <cstdlib>
#include <optional>

#include "det/exec/spelling.h"
#include "stimulus.h"

using namespace det::exec;

namespace {

constexpr std::int64_t kLimit = 1000000000000;

struct Params {
  std::int64_t count, spread, reseed, far;
};

struct Particle {
  std::uint32_t number;
  std::int64_t x, y;
};

struct Target {
  std::int64_t x, y;

  std::uint64_t DistanceTo(Particle const& particle) const {
    return static_cast<std::uint64_t>(std::abs(particle.x - x)) +
           static_cast<std::uint64_t>(std::abs(particle.y - y));
  }
};

/// Pass 0: a step of chance.
class Wander final : public WorkerRunnable<Particle> {
 public:
  explicit Wander(std::int64_t spread) : spread_(spread) {}

  void Run(Particle& particle, WorkerThread& thread) override {
    for (int tries = 0; tries < 8; ++tries) {
      std::int64_t const dx = Step(thread), dy = Step(thread);
      if (dx * dx + dy * dy > spread_ * spread_) continue;
      particle.x = std::clamp(particle.x + dx, -kLimit, kLimit);
      particle.y = std::clamp(particle.y + dy, -kLimit, kLimit);
      return;
    }
  }

 private:
  std::int64_t Step(WorkerThread& thread) const {
    auto const span = static_cast<std::uint64_t>(2 * spread_ + 1);
    return static_cast<std::int64_t>(thread.GetRandom() % span) - spread_;
  }

  std::int64_t spread_;
};

/// Pass 1: most particles move towards the nearest one.
class Follow final : public WorkerRunnable<Particle> {
 public:
  explicit Follow(Particle nearest) : nearest_(nearest) {}

  void Run(Particle& particle, WorkerThread& thread) override {
    if (thread.GetRandom() % 8 == 0) return;
    particle.x += Eighth(nearest_.x - particle.x);
    particle.y += Eighth(nearest_.y - particle.y);
  }

 private:
  /// Rounded down.
  static std::int64_t Eighth(std::int64_t value) {
    return value / 8 - (value % 8 < 0 ? 1 : 0);
  }

  Particle nearest_;
};

class Cloud final : public Application {
 public:
  Cloud(Params const& params, std::uint64_t seed) : params_(params), seed_(seed) {
    for (std::uint32_t i = 0; i < params.count; ++i) particles_.push_back({i, 0, 0});
  }

  void Open(Recorder& recorder) override {
    std::int64_t const params[] = {params_.count, params_.spread, params_.reseed, params_.far};
    DetEvent const events[] = {EventOf("x", 1), EventOf("y", 1), EventOf("hold", 1)};
    Need(recorder.Header(DetProfile{seed_, 10000000, 2}, params, events));
  }

  void Init(Recorder& recorder) override { Need(recorder.Init(Spelled({}))); }

  void Run(DeterministicClient& client, CycleInput const& input, Recorder& recorder) override {
    if (windows_[2].Newest().value_or(0) < 0) {
      Need(recorder.Refused(input, RefusalPhase::kPrepare, 1));
    } else {
      std::vector<Particle> const before = particles_;
      if (Moved(client)) {
        Need(recorder.Finished(input, Spelled(client.Draws()), Output()));
      } else {
        particles_ = before;
        Need(client.RefuseCycle());
        Need(recorder.Refused(input, RefusalPhase::kConclude, 2));
      }
    }
    Turn(windows_, {input.samples.data(), input.samples.data() + input.samples.size()});
  }

 private:
  /// The passes of a cycle. False if the nearest particle is too far away after them.
  bool Moved(DeterministicClient& client) {
    if (params_.reseed != 0 && client.Cycle() % params_.reseed == 0) {
      client.SetRandomSeed(client.GetRandom());
    }
    target_ = {windows_[0].Newest().value_or(0), windows_[1].Newest().value_or(0)};
    Wander wander(params_.spread);
    Need(client.RunWorkerPool(wander, particles_));
    Follow follow(Nearest());
    Need(client.RunWorkerPool(follow, particles_));
    if (target_.DistanceTo(Nearest()) > static_cast<std::uint64_t>(params_.far)) return false;
    ++finished_;
    return true;
  }

  Particle const& Nearest() const {
    return *std::min_element(particles_.begin(), particles_.end(), [this](auto& a, auto& b) {
      return target_.DistanceTo(a) < target_.DistanceTo(b);
    });
  }

  std::vector<DetElement> Spelled(Span<std::uint32_t const> draws) const {
    std::vector<DetElement> elements(particles_.size());
    for (std::size_t i = 0; i < elements.size(); ++i) {
      Particle const& particle = particles_[i];
      Spelling(elements[i]).U32(particle.number).I64(particle.x).I64(particle.y);
      if (!draws.empty()) elements[i].draws = draws[i];
    }
    return elements;
  }

  std::vector<std::uint8_t> Output() const {
    Particle const& nearest = Nearest();
    std::vector<std::uint8_t> output;
    Spelling(output).U32(nearest.number).I64(nearest.x).I64(nearest.y);
    Spelling(output).U64(target_.DistanceTo(nearest)).U32(finished_);
    return output;
  }

  Params params_;
  std::uint64_t seed_;
  std::vector<Particle> particles_;
  std::vector<EventWindow> windows_ = Windows(3);
  Target target_{0, 0};
  std::uint32_t finished_ = 0;
};

}  // namespace

int main(int count, char** words) {
  if (count != 8) return 2;
  std::uint64_t const seed = std::strtoull(words[2], nullptr, 10);
  Stimulus stimulus(words[1]);
  Cloud cloud({std::atoll(words[4]), std::atoll(words[5]), std::atoll(words[6]),
               std::atoll(words[7])},
              seed);
  return RunOver(cloud, stimulus, seed, static_cast<unsigned>(std::atoi(words[3])));
}
