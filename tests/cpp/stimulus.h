// A good stimulus (docs/FORMATS.md) as a source of activations, and what applications over it need.
#ifndef TESTS_CPP_STIMULUS_H
#define TESTS_CPP_STIMULUS_H

#include <cstdint>
#include <cstdlib>
#include <fstream>
#include <iostream>
#include <sstream>
#include <string>
#include <vector>

#include "det/exec/deterministic_client.h"
#include "det/exec/recorder.h"

/// Plays the blocks of a stimulus, then stops.
class Stimulus final : public det::exec::ActivationSource {
 public:
  explicit Stimulus(char const* path) {
    std::ifstream file(path);
    for (std::string line; std::getline(file, line);) Read(line);
  }

  det::exec::Activation Next() override {
    if (opened_ < 3) {
      ++opened_;
      return {};
    }
    if (next_ == blocks_.size()) return {true, std::nullopt};
    return {false, blocks_[next_++].time};
  }

  /// The samples that arrive in the present cycle.
  std::vector<DetSample> const& Samples() const { return blocks_[next_ - 1].samples; }

 private:
  struct Block {
    std::optional<std::uint64_t> time;
    std::vector<DetSample> samples;
  };

  void Read(std::string const& line) {
    std::istringstream words(line);
    std::string word;
    words >> word;
    if (word == "cycle") {
      std::uint64_t time = 0;
      blocks_.emplace_back();
      if (words >> time) blocks_.back().time = time;
    } else if (word == "sample") {
      DetSample sample{};
      words >> sample.event >> sample.value;
      blocks_.back().samples.push_back(sample);
    }
  }

  std::vector<Block> blocks_;
  std::size_t next_ = 0;
  int opened_ = 0;
};

/// Ends the test where a call answered an error.
template <typename Answer>
void Need(Answer const& answer) {
  if (answer) return;
  std::cerr << det::exec::MessageOf(answer.Error().code) << "\n";
  std::exit(1);
}

/// Windows of capacity 1, policy last, one for each event.
inline std::vector<det::exec::EventWindow> Windows(std::size_t count) {
  std::vector<det::exec::EventWindow> windows;
  while (windows.size() < count) {
    windows.push_back(det::exec::EventWindow::Create(1).Value());
  }
  return windows;
}

/// Samples arrive, and the cycle ends.
inline void Turn(std::vector<det::exec::EventWindow>& windows,
                 std::vector<DetSample> const& samples) {
  for (DetSample const& sample : samples) Need(windows[sample.event].Arrive(sample.value));
  for (det::exec::EventWindow& window : windows) window.Turn();
}

/// An application that a stimulus drives: what it does at the third activation and in a cycle.
class Application {
 public:
  virtual ~Application() = default;
  virtual void Open(det::exec::Recorder& recorder) = 0;
  virtual void Init(det::exec::Recorder& recorder) = 0;
  virtual void Run(det::exec::DeterministicClient& client, det::exec::CycleInput const& input,
                   det::exec::Recorder& recorder) = 0;
};

/// Runs an application over a stimulus, and writes its record to standard output.
inline int RunOver(Application& application, Stimulus& stimulus, std::uint64_t seed,
                   unsigned workers) {
  using namespace det::exec;
  DeterministicClient client =
      DeterministicClient::Create(stimulus, 10000000, workers).Value();
  client.SetRandomSeed(seed);
  StreamSink sink(std::cout);
  Recorder recorder(sink);
  application.Open(recorder);
  for (;;) {
    auto const activation = client.WaitForActivation();
    Need(activation);
    switch (activation.Value()) {
      case ActivationReturnType::kRegisterServices: Need(recorder.Register()); break;
      case ActivationReturnType::kServiceDiscovery: Need(recorder.Discover()); break;
      case ActivationReturnType::kInit: application.Init(recorder); break;
      case ActivationReturnType::kRun:
        application.Run(client, {client.GetActivationNanoseconds(), stimulus.Samples()}, recorder);
        break;
      case ActivationReturnType::kTerminate: Need(recorder.Terminate()); return 0;
    }
  }
}

#endif
