// ara::exec::DeterministicClient for an application that was written for a vendor's stack of the
// releases R20-11 to R22-11: an adapter over det::exec, on request. It only compiles with
// -DDET_EXEC_ARA_CORE=1, which the whole program needs, since the calls return results of
// ara::core.
//
// All names are in an inline namespace of this repository, so no symbol is one of a vendor's
// library in the same process. A source file includes this header or the vendor's: with both, the
// compiler reports that a name is ambiguous.
//
// A client of the default constructor takes cycle time and workers from the manifest that the
// environment names in DET_MANIFEST. It runs by the steady clock, without end or for as many cycles
// as DET_CYCLES says.
#ifndef DET_ARA_EXEC_DETERMINISTIC_CLIENT_H
#define DET_ARA_EXEC_DETERMINISTIC_CLIENT_H

#include <cstdlib>
#include <memory>
#include <new>
#include <optional>
#include <utility>

#include "det/exec/deterministic_client.h"
#include "det/exec/live.h"
#include "det/exec/manifest_reader.h"

#if !DET_EXEC_ARA_CORE
#error "compile all sources with -DDET_EXEC_ARA_CORE=1, and ara/core/result.h on the include path"
#endif

namespace ara::exec {
inline namespace det_v1 {

using ::det::exec::ActivationReturnType;
using ::det::exec::ActivationSource;
using ::det::exec::DeterministicErrc;
using ::det::exec::WorkerRunnable;
using ::det::exec::WorkerThread;

/// The standard's class over `det::exec::DeterministicClient`.
class DeterministicClient final {
 public:
  using TimeStamp = ::det::exec::DeterministicClient::TimeStamp;

  /// A client of the manifest that DET_MANIFEST names. Each call that returns a result returns the
  /// error if it can't be made: kBadCycleTime for a manifest that isn't taken.
  DeterministicClient() noexcept {
    std::unique_ptr<DetManifest> manifest(new (std::nothrow) DetManifest{});
    if (!manifest) return;
    char const* const name = std::getenv("DET_MANIFEST");
    error_ = DeterministicErrc::kBadCycleTime;
    if (name == nullptr || !::det::exec::ReadManifest(name, false, *manifest).IsDone()) return;
    error_ = DeterministicErrc::kNoMemory;
    own_.reset(new (std::nothrow)::det::exec::TimerSource(manifest->cycle_time, CyclesWanted()));
    if (own_) Make(*own_, manifest->cycle_time, manifest->workers);
  }

  /// A client of another source, which has to live as long.
  DeterministicClient(ActivationSource& source, std::uint64_t cycle_time,
                      std::uint32_t workers) noexcept {
    Make(source, cycle_time, workers);
  }

  DeterministicClient(DeterministicClient const&) = delete;
  DeterministicClient& operator=(DeterministicClient const&) = delete;

  ara::core::Result<ActivationReturnType> WaitForActivation() noexcept {
    using Answer = ::det::exec::Result<ActivationReturnType>;
    return client_ ? client_->WaitForActivation() : Answer(error_);
  }
  ara::core::Result<ActivationReturnType> WaitForNextActivation() noexcept {
    return WaitForActivation();
  }

  template <typename ValueType, typename Container>
  ara::core::Result<void> RunWorkerPool(WorkerRunnable<ValueType>& runnable,
                                        Container& container) noexcept {
    using Answer = ::det::exec::Result<void>;
    return client_ ? client_->RunWorkerPool(runnable, container) : Answer(error_);
  }

  std::uint64_t GetRandom() noexcept { return client_ ? client_->GetRandom() : 0; }
  void SetRandomSeed(std::uint64_t seed) noexcept {
    if (client_) client_->SetRandomSeed(seed);
  }

  ara::core::Result<TimeStamp> GetActivationTime() noexcept {
    using Answer = ::det::exec::Result<TimeStamp>;
    return client_ ? client_->GetActivationTime() : Answer(error_);
  }
  ara::core::Result<TimeStamp> GetNextActivationTime() noexcept {
    using Answer = ::det::exec::Result<TimeStamp>;
    return client_ ? client_->GetNextActivationTime() : Answer(error_);
  }

  /// What this repository's client has besides the standard's: refused cycles, draws, records. Null
  /// if the client couldn't be made.
  ::det::exec::DeterministicClient* Det() noexcept { return client_ ? &*client_ : nullptr; }

 private:
  static std::uint64_t CyclesWanted() noexcept {
    char const* const cycles = std::getenv("DET_CYCLES");
    return cycles == nullptr ? 0 : std::strtoull(cycles, nullptr, 10);
  }

  void Make(ActivationSource& source, std::uint64_t cycle_time, std::uint32_t workers) noexcept {
    auto made = ::det::exec::DeterministicClient::Create(source, cycle_time, workers);
    if (made) {
      client_.emplace(std::move(made).Value());
    } else {
      error_ = made.Error().code;
    }
  }

  DeterministicErrc error_ = DeterministicErrc::kNoMemory;
  std::unique_ptr<::det::exec::TimerSource> own_;
  std::optional<::det::exec::DeterministicClient> client_;
};

}  // namespace det_v1
}  // namespace ara::exec

#endif
