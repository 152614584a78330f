// An application with a loop of its own over the client and the recorder, as a ported one has it.
// It runs live, and in the lab over a record, which it checks meanwhile:
//
//     own_loop record > drive.rec           own_loop check drive.rec
#include <cstdio>
#include <cstring>
#include <iostream>
#include <vector>

#include "det/exec/deterministic_client.h"
#include "det/exec/engine.h"
#include "det/exec/recorder.h"
#include "det/exec/replay.h"

using namespace det::exec;

constexpr std::uint64_t kCycleTime = 1000000;

class Drift final : public WorkerRunnable<std::int64_t> {
 public:
  void Run(std::int64_t& value, WorkerThread& thread) override {
    value += static_cast<std::int64_t>(thread.GetRandom() % 7) - 3;
  }
};

/// The bus: 20 cycles of 1 ms.
class Bus final : public TimerSource {
 public:
  Bus() : TimerSource(kCycleTime, 20) {}
  void Arrived(Arrivals& arrivals) override { (void)arrivals.Add(0, ++count_); }

 private:
  std::int64_t count_ = 0;
};

/// The values as elements of a record.
std::vector<DetElement> ElementsOf(std::vector<std::int64_t> const& values,
                                   Span<std::uint32_t const> draws) {
  std::vector<DetElement> elements(values.size());
  for (std::size_t i = 0; i < values.size(); ++i) {
    Spelling(elements[i]).I64(values[i]);
    elements[i].draws = i < draws.size() ? draws[i] : 0;
  }
  return elements;
}

Result<void> RunCycle(DeterministicClient& client, LiveSource& source, Recorder& recorder,
                      std::vector<std::int64_t>& values) {
  Drift drift;
  Result<void> const done = client.RunWorkerPool(drift, values);
  if (!done) return done;
  DetSample room[16];
  Arrivals arrivals({room, 16}, 1);
  source.Arrived(arrivals);
  auto const samples = arrivals.All();
  return recorder.Finished({client.GetActivationNanoseconds(), {samples.data(), samples.size()}},
                           ElementsOf(values, client.Draws()));
}

Result<void> Loop(LiveSource& source, RecordSink& sink, DetHeader const& header) {
  auto made = DeterministicClient::Create(source, header.profile.cycle_time, 3);
  if (!made) return made.Error();
  DeterministicClient& client = *made;
  Recorder recorder(sink, header.format);
  std::vector<std::int64_t> values(500);
  Result<void> done =
      recorder.Header(header.profile, {}, Items<DetEvent>(header.events, header.event_count));
  while (done) {
    auto const next = client.WaitForActivation();
    if (!next) return next.Error();
    switch (*next) {
      case ActivationReturnType::kRegisterServices: done = recorder.Register(); break;
      case ActivationReturnType::kServiceDiscovery: done = recorder.Discover(); break;
      case ActivationReturnType::kInit: done = recorder.Init(ElementsOf(values, {})); break;
      case ActivationReturnType::kRun: done = RunCycle(client, source, recorder, values); break;
      case ActivationReturnType::kTerminate: return recorder.Terminate();
    }
  }
  return done;
}

int Record() {
  Bus bus;
  StreamSink sink(std::cout);
  DetEvent const events[] = {EventOf("tick", 1)};
  return Loop(bus, sink, HeaderOf(DetProfile{0, kCycleTime, 80}, {}, {events, 1})) ? 0 : 1;
}

int Check(char const* name) {
  static DetHeader header;
  RecordedSource source;
  CheckingSink sink;
  if (!source.Open(name, header).IsDone() || !sink.Open(name).IsDone()) return 5;
  Result<void> const done = Loop(source, sink, header);
  if (auto const place = sink.Departs()) {
    DetText text;
    det_text_departs(&*place, &text);
    std::fwrite(text.bytes, 1, text.len, stdout);
    return 1;
  }
  bool const genuine = done && source.Ended().IsDone();
  std::puts(genuine ? "genuine" : "broken");
  return genuine ? 0 : 5;
}

int main(int count, char** arguments) {
  if (count == 2 && std::strcmp(arguments[1], "record") == 0) return Record();
  if (count == 3 && std::strcmp(arguments[1], "check") == 0) return Check(arguments[2]);
  return 2;
}
