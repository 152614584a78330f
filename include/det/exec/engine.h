// Runs a job, and writes each activation as one part of a record.
#ifndef DET_EXEC_ENGINE_H
#define DET_EXEC_ENGINE_H

#include <algorithm>
#include <cstddef>
#include <cstdint>
#include <cstring>
#include <optional>
#include <utility>

#include "det/exec/job.h"
#include "det/exec/version.h"

namespace det::exec {
inline namespace DET_EXEC_ABI {

/// The header of a run that isn't read from a record: at most 16 parameters and 256 events.
inline DetHeader HeaderOf(DetProfile const& profile, Span<std::int64_t const> params = {},
                          Span<DetEvent const> events = {}) noexcept {
  DetHeader header{};
  header.profile = profile;
  header.format = 2;
  header.param_count = static_cast<std::uint16_t>(std::min<std::size_t>(params.size(), 16));
  header.event_count = static_cast<std::uint16_t>(std::min<std::size_t>(events.size(), 256));
  std::copy_n(params.data(), header.param_count, header.params);
  std::copy_n(events.data(), header.event_count, header.events);
  return header;
}

/// How an engine is opened.
struct EngineOptions {
  std::uint32_t workers = 1;
  MissingThreads missing = MissingThreads::kAllow;
  ThreadOptions threads;
  /// The most samples that arrive in a cycle, at most 4,096. More take memory in that cycle.
  std::size_t samples = 4096;
};

/// A job with its elements, state, windows and record. The sink gets each part of the record in one
/// call of its `Write`. After `Open` no call takes memory, unless a part is larger than the job
/// reserved.
template <typename J>
class Engine final : private ActivationSource {
 public:
  using Element = typename J::Element;
  using State = typename J::State;

  /// The engine has a copy of the job, whose copy constructor throws nothing. The sink has to live
  /// as long as the engine.
  Engine(J const& job, RecordSink& sink) noexcept : job_(job), sink_(sink) {}
  Engine(Engine const&) = delete;
  Engine& operator=(Engine const&) = delete;

  /// Runs the first three activations. Writes Header, Register, Discover and Init. It is called
  /// once.
  Result<void> Open(DetHeader const& header, EngineOptions const& options) noexcept {
    Result<void> done = MakeClient(header, options);
    if (done) done = MakeWindows(header);
    if (done) done = WriteHeader(header);
    if (done) done = Activate({}, ActivationReturnType::kRegisterServices);
    if (done) done = recorder_->Register();
    if (done) done = Activate({}, ActivationReturnType::kServiceDiscovery);
    if (done) done = recorder_->Discover();
    if (done) done = Activate({}, ActivationReturnType::kInit);
    if (done) done = InitJob(options);
    if (done) done = WriteInit();
    return done;
  }

  /// Begins the next cycle, and runs the job in it. After an error the run has ended.
  Result<void> Begin(std::optional<std::uint64_t> time) noexcept {
    Result<void> const done = Activate({false, time}, ActivationReturnType::kRun);
    if (!done) return done;
    Copy(elements_, before_);
    state_before_ = state_;
    output_.Clear();
    Cycle<J> cycle(*client_, elements_, state_, output_,
                   Span<EventWindow const>(windows_.data(), windows_.size()));
    DET_EXEC_TRY { job_.Run(cycle); }
    DET_EXEC_CATCH_ALL { cycle.Fail(DeterministicErrc::kApplicationThrew); }
    if (cycle.Error()) return *cycle.Error();
    refusal_ = cycle.Refusal();
    if (!refusal_ && output_.Overflowed()) return DeterministicErrc::kOutputTooLong;
    return {};
  }

  /// Ends the cycle, in which these samples arrived. Writes its Run.
  Result<void> End(Span<DetSample const> samples) noexcept {
    CycleInput const input{client_->GetActivationNanoseconds(),
                           Items<DetSample>(samples.data(), samples.size())};
    Result<void> const done = refusal_ ? Refuse(input) : Finish(input);
    if (!done) return done;
    for (DetSample const& sample : samples) {
      if (sample.event >= windows_.size()) return DeterministicErrc::kOutOfRange;
      Result<void> const arrived = windows_[sample.event].Arrive(sample.value);
      if (!arrived) return arrived;
    }
    for (std::size_t i = 0; i < windows_.size(); ++i) windows_[i].Turn();
    return {};
  }

  /// Ends the run. Writes Terminate.
  Result<void> Close() noexcept {
    Result<void> const done = Activate({true, std::nullopt}, ActivationReturnType::kTerminate);
    return done ? recorder_->Terminate() : done;
  }

  /// The number of the last cycle; 0 before the first one.
  std::uint32_t Cycles() const noexcept { return client_ ? client_->Cycle() : 0; }

 private:
  static constexpr std::size_t kDefaultOutput = 256, kMostElementBytes = 64;

  Activation Next() noexcept override { return next_; }

  Result<void> MakeClient(DetHeader const& header, EngineOptions const& options) noexcept {
    Result<DeterministicClient> client =
        DeterministicClient::Create(*this, header.profile.cycle_time, options.workers,
                                    options.missing, options.threads);
    if (!client) return client.Error();
    client_.emplace(std::move(client).Value());
    client_->SetRandomSeed(header.profile.seed);
    return {};
  }

  Result<void> MakeWindows(DetHeader const& header) noexcept {
    if (!windows_.Grow(header.event_count)) return DeterministicErrc::kNoMemory;
    for (std::size_t i = 0; i < header.event_count; ++i) {
      auto window = EventWindow::Create(header.events[i].capacity,
                                        static_cast<WindowPolicy>(header.events[i].policy));
      if (!window) return window.Error();
      windows_[i] = std::move(window).Value();
    }
    return {};
  }

  Result<void> WriteHeader(DetHeader const& header) noexcept {
    recorder_.emplace(sink_, header.format);
    return recorder_->Header(header.profile,
                             Items<std::int64_t>(header.params, header.param_count),
                             Items<DetEvent>(header.events, header.event_count));
  }

  Result<void> Activate(Activation next, ActivationReturnType wanted) noexcept {
    next_ = next;
    Result<ActivationReturnType> const got = client_->WaitForActivation();
    if (!got) return got.Error();
    return *got == wanted ? Result<void>() : Result<void>(DeterministicErrc::kMisplaced);
  }

  /// Has the job initialized, and takes all the memory that its cycles need.
  Result<void> InitJob(EngineOptions const& options) noexcept {
    if (!output_.Reserve(kDefaultOutput)) return DeterministicErrc::kNoMemory;
    Start<J> start(*client_, elements_, state_, output_);
    DET_EXEC_TRY { job_.Init(start); }
    DET_EXEC_CATCH_ALL { start.Fail(DeterministicErrc::kApplicationThrew); }
    if (start.Error()) return *start.Error();
    if (!before_.Grow(elements_.size())) return DeterministicErrc::kNoMemory;
    RecordShape shape;
    shape.elements = elements_.size();
    element_bytes_ = std::min(start.ElementBytes(), kMostElementBytes);
    shape.element_bytes = element_bytes_;
    shape.samples = windows_.size() == 0 ? 0 : options.samples;
    shape.output = output_.Most();
    Result<void> const reserved = client_->Reserve(elements_.size());
    return reserved ? recorder_->Reserve(shape) : reserved;
  }

  Result<void> WriteInit() noexcept {
    internal::Array<DetElement> spelled;
    if (!spelled.Grow(elements_.size())) return DeterministicErrc::kNoMemory;
    DET_EXEC_TRY {
      for (std::size_t i = 0; i < elements_.size(); ++i) {
        ElementRoom room(spelled[i].bytes, kMostElementBytes);
        SpellElement(i, room);
        spelled[i].len = static_cast<std::uint8_t>(room.Size());
      }
    }
    DET_EXEC_CATCH_ALL { return DeterministicErrc::kApplicationThrew; }
    return recorder_->Init(Items<DetElement>(spelled.data(), spelled.size()));
  }

  void SpellElement(std::size_t number, ElementRoom& room) const {
    ElementSpelling spelling(room);
    J::Spell(elements_[number], spelling);
  }

  Result<void> Finish(CycleInput const& input) noexcept {
    auto const draws = client_->Draws();
    auto const spell = [this, draws](std::uint32_t number, ElementRoom& room) {
      SpellElement(number, room);
      return number < draws.size() ? draws[number] : 0;
    };
    auto const share = [this](internal::SharedWork& work, std::size_t blocks) {
      client_->Share(work, blocks);
    };
    DET_EXEC_TRY {
      return recorder_->FinishedInBlocks(input, elements_.size(), element_bytes_, spell, share,
                                         Items<std::uint8_t>(output_.data(), output_.size()));
    }
    DET_EXEC_CATCH_ALL { return DeterministicErrc::kApplicationThrew; }
  }

  Result<void> Refuse(CycleInput const& input) noexcept {
    Copy(before_, elements_);
    state_ = state_before_;
    Result<void> const done = client_->RefuseCycle();
    if (!done) return done;
    if (refusal_->phase == static_cast<std::uint8_t>(RefusalPhase::kPool)) {
      return recorder_->RefusedInPass(input, refusal_->pass, refusal_->element, refusal_->code);
    }
    return recorder_->Refused(input, static_cast<RefusalPhase>(refusal_->phase), refusal_->code);
  }

  static void Copy(internal::Array<Element> const& from, internal::Array<Element>& to) noexcept {
    if (from.size() != 0) std::memcpy(to.data(), from.data(), from.size() * sizeof(Element));
  }

  J const job_;
  RecordSink& sink_;
  std::optional<Recorder> recorder_;
  Activation next_;
  std::optional<DeterministicClient> client_;
  internal::Array<EventWindow> windows_;
  internal::Array<Element> elements_, before_;
  State state_{}, state_before_{};
  std::size_t element_bytes_ = kMostElementBytes;
  BoundedBytes output_;
  std::optional<DetRefusal> refusal_;
};

}  // namespace DET_EXEC_ABI
}  // namespace det::exec

#endif
