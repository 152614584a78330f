// The job `guard` (docs/FORMATS.md) as an application with a loop of its own, which refuses cycles
// in its pass. Its record is to be the one that `det record` writes, byte for byte.
//
//     guard STIMULUS SEED WORKERS CHANNELS LOW HIGH LIMIT MOST
#include <atomic>
#include <cstdlib>
#include <limits>
#include <optional>

#include "det/exec/spelling.h"
#include "stimulus.h"

using namespace det::exec;

namespace {

struct Params {
  std::int64_t channels, low, high, limit, most;
};

struct Channel {
  std::uint32_t number;
  std::int64_t held;
  std::uint16_t streak;
  bool corrected;
};

/// The pass: a channel takes its event's newest sample, or holds what it has. A runnable answers
/// nothing, so the least channel that refuses is kept here.
class Judge final : public WorkerRunnable<Channel> {
 public:
  static constexpr std::uint32_t kNone = std::numeric_limits<std::uint32_t>::max();

  Judge(Params const& params, std::vector<EventWindow> const& windows)
      : params_(params), windows_(windows) {}

  void Run(Channel& channel, WorkerThread&) override {
    channel.corrected = false;
    if (windows_.empty()) return;
    std::optional<std::int64_t> const sample = windows_[channel.number % windows_.size()].Newest();
    if (!sample) return;
    if (params_.low <= *sample && *sample <= params_.high) {
      channel.held = *sample;
      channel.streak = 0;
      return;
    }
    channel.corrected = true;
    if (++channel.streak >= params_.limit) Refuse(channel.number);
  }

  std::uint32_t Refused() const { return refused_.load(); }

 private:
  void Refuse(std::uint32_t number) {
    std::uint32_t least = refused_.load();
    while (number < least && !refused_.compare_exchange_weak(least, number)) {
    }
  }

  Params const& params_;
  std::vector<EventWindow> const& windows_;
  std::atomic<std::uint32_t> refused_{kNone};
};

class Guard final : public Application {
 public:
  Guard(Params const& params, std::uint64_t seed) : params_(params), seed_(seed) {
    for (std::uint32_t i = 0; i < params.channels; ++i) channels_.push_back({i, 0, 0, false});
  }

  void Open(Recorder& recorder) override {
    std::int64_t const params[] = {params_.channels, params_.low, params_.high, params_.limit,
                                   params_.most};
    DetEvent const events[] = {EventOf("a", 1), EventOf("b", 1)};
    Need(recorder.Header(DetProfile{seed_, 10000000, 3}, params, events));
  }

  void Init(Recorder& recorder) override { Need(recorder.Init(Spelled())); }

  void Run(DeterministicClient& client, CycleInput const& input, Recorder& recorder) override {
    std::vector<Channel> const before = channels_;
    Judge judge(params_, windows_);
    Need(client.RunWorkerPool(judge, channels_));
    std::vector<std::uint32_t> const corrected = Corrected();
    if (judge.Refused() != judge.kNone) {
      Need(recorder.RefusedInPass(input, 0, judge.Refused(), 1));
    } else if (corrected.size() > static_cast<std::uint64_t>(params_.most)) {
      Need(recorder.Refused(input, RefusalPhase::kConclude, 2));
    } else {
      corrections_ += corrected.size();
      Need(recorder.Finished(input, Spelled(), Output(client, corrected)));
      Turn(windows_, {input.samples.data(), input.samples.data() + input.samples.size()});
      return;
    }
    channels_ = before;
    Need(client.RefuseCycle());
    Turn(windows_, {input.samples.data(), input.samples.data() + input.samples.size()});
  }

 private:
  std::vector<std::uint32_t> Corrected() const {
    std::vector<std::uint32_t> numbers;
    for (Channel const& channel : channels_) {
      if (channel.corrected) numbers.push_back(channel.number);
    }
    return numbers;
  }

  std::vector<DetElement> Spelled() const {
    std::vector<DetElement> elements(channels_.size());
    for (std::size_t i = 0; i < elements.size(); ++i) {
      Spelling(elements[i]).U32(channels_[i].number).I64(channels_[i].held).U16(
          channels_[i].streak);
    }
    return elements;
  }

  std::vector<std::uint8_t> Output(DeterministicClient const& client,
                                   std::vector<std::uint32_t> const& corrected) const {
    std::vector<std::uint8_t> output;
    Spelling spelling(output);
    spelling.U64(corrections_).U32(static_cast<std::uint32_t>(corrected.size()));
    for (std::uint32_t number : corrected) spelling.U32(number);
    std::optional<std::uint64_t> const next = client.GetNextActivationNanoseconds();
    spelling.U8(next ? 1 : 0);
    if (next) spelling.U64(*next);
    return output;
  }

  Params params_;
  std::uint64_t seed_;
  std::vector<Channel> channels_;
  std::vector<EventWindow> windows_ = Windows(2);
  std::uint64_t corrections_ = 0;
};

}  // namespace

int main(int count, char** words) {
  if (count != 9) return 2;
  std::uint64_t const seed = std::strtoull(words[2], nullptr, 10);
  Stimulus stimulus(words[1]);
  Guard guard({std::atoll(words[4]), std::atoll(words[5]), std::atoll(words[6]),
               std::atoll(words[7]), std::atoll(words[8])},
              seed);
  return RunOver(guard, stimulus, seed, static_cast<unsigned>(std::atoi(words[3])));
}
