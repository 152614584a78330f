// Where the cycles and the samples of a live run come from.
#ifndef DET_EXEC_LIVE_H
#define DET_EXEC_LIVE_H

#include <cerrno>
#include <csignal>
#include <cstddef>
#include <cstdint>
#include <ctime>

#include "det/exec/det_types.h"
#include "det/exec/deterministic_client.h"
#include "det/exec/memory.h"
#include "det/exec/version.h"

namespace det::exec {
inline namespace DET_EXEC_ABI {

/// The samples that arrive in a cycle, in room that someone else owns.
class Arrivals {
 public:
  Arrivals(Span<DetSample> room, std::size_t events) noexcept : room_(room), events_(events) {}

  /// Adds a sample. False if the room is full, there is no such event, or the value isn't -10^12 to
  /// 10^12; then the sample is left out.
  bool Add(std::size_t event, std::int64_t value) noexcept {
    constexpr std::int64_t kMost = 1000000000000;
    if (count_ == room_.size() || event >= events_ || value < -kMost || value > kMost) return false;
    room_[count_++] = DetSample{value, static_cast<std::uint16_t>(event)};
    return true;
  }

  Span<DetSample const> All() const noexcept { return {room_.data(), count_}; }

 private:
  Span<DetSample> room_;
  std::size_t events_, count_ = 0;
};

/// An application's own source: a timer, a bus. The thread that runs the job calls it. The first
/// three calls of `Next` are for Register, Discover and Init, and what they return isn't used; each
/// later one is for a cycle. A run takes no memory in its cycles if `Next` and `Arrived` take none.
/// An exception ends the run.
class LiveSource : public ActivationSource {
 public:
  /// The platform's part of an activation, such as offering a service. It is called after `Next`.
  virtual void Activated(ActivationReturnType) {}
  /// Adds what arrived since the last call. It is called at the end of each cycle; the next cycle
  /// sees these samples.
  virtual void Arrived(Arrivals&) {}
};

/// Cycles by the steady clock. The first one is due at once, each later one a cycle time after the
/// one before. A cycle that is due already begins at once and counts as late.
class TimerSource : public LiveSource {
 public:
  /// A source of `cycles` cycles, or without end if that is 0.
  explicit TimerSource(std::uint64_t cycle_time, std::uint64_t cycles = 0) noexcept
      : cycle_time_(cycle_time), cycles_(cycles) {}

  Activation Next() override {
    constexpr int kOpening = 3;
    if (opened_ < kOpening) {
      ++opened_;
      return {};
    }
    if (stopped_ != 0 || (cycles_ != 0 && run_ == cycles_)) return {true, std::nullopt};
    std::uint64_t const now = Now();
    if (run_++ == 0) due_ = now;
    if (due_ < now) ++late_;
    if (due_ > now) WaitUntil(due_);
    std::uint64_t const time = due_;
    due_ += cycle_time_;
    return {false, time};
  }

  /// Makes the next activation the last one. A signal handler may call it.
  void Stop() noexcept { stopped_ = 1; }

  /// How many cycles began after they were due.
  std::uint64_t Late() const noexcept { return late_; }

 private:
  static constexpr std::uint64_t kSecond = 1000000000;

  static std::uint64_t Now() noexcept {
    timespec now{};
    clock_gettime(CLOCK_MONOTONIC, &now);
    return static_cast<std::uint64_t>(now.tv_sec) * kSecond +
           static_cast<std::uint64_t>(now.tv_nsec);
  }

  /// Returns at that time, or after a signal if `Stop` was called.
  void WaitUntil(std::uint64_t due) noexcept {
    timespec time{};
    time.tv_sec = static_cast<std::time_t>(due / kSecond);
    time.tv_nsec = static_cast<long>(due % kSecond);
    while (clock_nanosleep(CLOCK_MONOTONIC, TIMER_ABSTIME, &time, nullptr) == EINTR &&
           stopped_ == 0) {
    }
  }

  std::uint64_t cycle_time_, cycles_, run_ = 0, due_ = 0, late_ = 0;
  volatile std::sig_atomic_t stopped_ = 0;
  int opened_ = 0;
};

/// Has a source open its run: its first three activations.
inline void OpenLive(LiveSource& source) {
  for (auto const activation :
       {ActivationReturnType::kRegisterServices, ActivationReturnType::kServiceDiscovery,
        ActivationReturnType::kInit}) {
    (void)source.Next();
    source.Activated(activation);
  }
}

/// Runs an opened engine over an opened source, until the source stops it or there is an error. The
/// room is for the samples of a cycle.
template <typename EngineT>
Result<void> RunLive(EngineT& engine, LiveSource& source, std::size_t events,
                     Span<DetSample> room) noexcept {
  DET_EXEC_TRY {
    for (;;) {
      Activation const next = source.Next();
      source.Activated(next.stop ? ActivationReturnType::kTerminate : ActivationReturnType::kRun);
      if (next.stop) return engine.Close();
      Result<void> done = engine.Begin(next.time);
      if (!done) return done;
      Arrivals arrivals(room, events);
      source.Arrived(arrivals);
      done = engine.End(arrivals.All());
      if (!done) return done;
    }
  }
  DET_EXEC_CATCH_ALL { return DeterministicErrc::kApplicationThrew; }
}

}  // namespace DET_EXEC_ABI
}  // namespace det::exec

#endif
