// The job `guard` of det (docs/FORMATS.md) as an application's job. It refuses cycles in its pass,
// and reads the time of the next activation:
//
//     guard record ../guard.toml ../guard.stim > guard.rec
#include "det/exec/application.h"

using namespace det::exec;

struct Channel {
  std::uint32_t number;
  std::int64_t held;
  std::uint16_t streak;
  bool corrected;
};

struct Corrections {
  std::uint64_t all = 0;
};

class Guard final : public Job<Channel, Corrections> {
 public:
  static constexpr char const* kName = "guard";
  static constexpr std::uint16_t kNumber = 3;
  static constexpr std::int64_t kLimit = 1000000000000;

  explicit Guard(Parameters& params)
      : channels_(params.Take("channels", 1, 65536)),
        low_(params.Take("low", -kLimit, kLimit)),
        high_(params.Take("high", low_, kLimit)),
        limit_(params.Take("limit", 1, 1000)),
        most_(params.Take("most", 0, 65536)) {}

  void Init(Start<Guard>& start) const {
    std::uint32_t number = 0;
    auto const count = static_cast<std::size_t>(channels_);
    for (Channel& each : start.Resize(count)) each = {number++, 0, 0, false};
    start.ReserveElement(14);
    start.ReserveOutput(8 + 4 + 4 * count + 9);
  }

  void Run(Cycle<Guard>& cycle) const {
    auto const events = cycle.Events();
    bool const done = cycle.Pass([&](Channel& channel, WorkerThread& thread) {
      channel.corrected = false;
      if (events.empty()) return;
      auto const sample = events[channel.number % events.size()].Newest();
      if (!sample) return;
      channel.corrected = *sample < low_ || *sample > high_;
      if (!channel.corrected) {
        channel.held = *sample;
        channel.streak = 0;
      } else if (++channel.streak >= limit_) {
        thread.Refuse(1);
      }
    });
    if (!done) return;
    std::uint32_t corrected = 0;
    for (Channel const& channel : cycle.Elements()) corrected += channel.corrected ? 1 : 0;
    if (corrected > most_) return cycle.Refuse(2);
    OutputSpelling out = cycle.Output().U64(cycle.State().all += corrected).U32(corrected);
    for (Channel const& channel : cycle.Elements()) {
      if (channel.corrected) out.U32(channel.number);
    }
    auto const next = cycle.NextTime();
    out.U8(next ? 1 : 0);
    if (next) out.U64(*next);
  }

  static void Spell(Channel const& channel, ElementSpelling& out) {
    out.U32(channel.number).I64(channel.held).U16(channel.streak);
  }

 private:
  std::int64_t channels_, low_, high_, limit_, most_;
};

int main(int count, char** arguments) { return Main<Guard>(count, arguments); }
