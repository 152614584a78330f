// det::exec::DeterministicClient: a process that runs cycle by cycle. Its results depend only on
// its inputs and its seed, for every number of worker threads.
#ifndef DET_EXEC_DETERMINISTIC_CLIENT_H
#define DET_EXEC_DETERMINISTIC_CLIENT_H

#include <algorithm>
#include <chrono>
#include <cstddef>
#include <cstdint>
#include <iterator>
#include <limits>
#include <memory>
#include <new>
#include <optional>
#include <type_traits>
#include <utility>

#include "det/exec/det_client.h"
#include "det/exec/event_window.h"
#include "det/exec/memory.h"
#include "det/exec/result.h"
#include "det/exec/version.h"
#include "det/exec/worker_pool.h"

namespace det::exec {
inline namespace DET_EXEC_ABI {

/// What the process does next.
enum class ActivationReturnType : std::uint32_t {
  kRegisterServices = 0,
  kServiceDiscovery = 1,
  kInit = 2,
  kRun = 3,
  kTerminate = 4
};

/// What the platform gives an activation: whether the process has to stop, and the time of the
/// cycle in nanoseconds if it is known.
struct Activation {
  bool stop = false;
  std::optional<std::uint64_t> time;
};

/// Where activations come from: a clock, a bus, a file. The application implements it.
class ActivationSource {
 public:
  virtual ~ActivationSource() = default;

  /// Waits until the next activation is due. The first three are kRegisterServices,
  /// kServiceDiscovery and kInit, unless one stops the process. Only a cycle uses the time.
  virtual Activation Next() = 0;
};

using ActivationTimeStamp =
    std::chrono::time_point<std::chrono::steady_clock, std::chrono::nanoseconds>;

/// What `DeterministicClient::Create` does if the system starts fewer threads than it asked for.
enum class MissingThreads : std::uint8_t {
  kRefuse,  ///< it returns kThreadNotStarted, and leaves no thread
  kAllow    ///< the client has fewer workers, which changes no result
};

/// Whether `DeterministicClient::Draws` counts the random numbers of a pass.
enum class DrawCount : std::uint8_t {
  kEach,  ///< for each element of its container
  kNone   ///< not at all: its container isn't that of the run's elements
};

/// A deterministic client. One thread calls it at a time.
class DeterministicClient {
 public:
  using TimeStamp = ActivationTimeStamp;

  static constexpr unsigned kMostWorkers = 64;
  static constexpr std::size_t kMostElements = 65536;
  static constexpr std::uint8_t kMostPasses = 8;

  /// A client with a cycle time of 1 to 2^63 - 1 nanoseconds and 1 to 64 workers. The caller's
  /// thread is a worker. The other threads are started here and end with the client. The source has
  /// to live as long as the client. Takes memory.
  static Result<DeterministicClient> Create(
      ActivationSource& source, std::uint64_t cycle_time, std::uint32_t workers = 1,
      MissingThreads missing = MissingThreads::kRefuse,
      ThreadOptions const& threads = ThreadOptions{}) noexcept {
    det_layout_1();
    DeterministicClient made(source);
    if (!det_client_new(&made.client_, cycle_time)) return DeterministicErrc::kBadCycleTime;
    if (workers < 1 || workers > kMostWorkers) return DeterministicErrc::kBadWorkers;
    made.begun_ = made.client_;
    using Started = internal::Crew::Started;
    made.crew_.reset(new (std::nothrow) internal::Crew);
    if (!made.crew_) return DeterministicErrc::kNoMemory;
    switch (made.crew_->Start(workers - 1, threads)) {
      case Started::kAll: break;
      case Started::kNoMemory: return DeterministicErrc::kNoMemory;
      case Started::kBadOptions: return DeterministicErrc::kBadThreadOptions;
      case Started::kFewer:
        if (missing == MissingThreads::kRefuse) return DeterministicErrc::kThreadNotStarted;
    }
    return Result<DeterministicClient>(std::move(made));
  }

  /// There is no copy: it would draw the same random numbers again. After a move the old client may
  /// only be destroyed or assigned to.
  DeterministicClient(DeterministicClient&&) noexcept = default;
  DeterministicClient& operator=(DeterministicClient&&) noexcept = default;

  /// Takes the memory for passes over at most `elements` elements. Afterwards no pass over a
  /// container of that many with random access takes memory. If `random_access` is false, neither
  /// does one without random access, which needs 8 bytes more for each element. A pass that nothing
  /// was reserved for takes memory if its container is the longest so far of its kind.
  Result<void> Reserve(std::size_t elements, bool random_access = true) noexcept {
    if (elements > kMostElements) return DeterministicErrc::kTooManyElements;
    if (!draws_.Grow(elements)) return DeterministicErrc::kNoMemory;
    if (!random_access && !places_.Grow(elements)) return DeterministicErrc::kNoMemory;
    return {};
  }

  /// Waits for the next activation, and returns what to do: register services, discover services
  /// and initialize once each, then cycles, at most 1,000,000, until the source stops the process.
  /// After an error the client is at the activation before.
  Result<ActivationReturnType> WaitForActivation() noexcept {
    Activation next;
    DET_EXEC_TRY { next = source_->Next(); }
    DET_EXEC_CATCH_ALL { return DeterministicErrc::kApplicationThrew; }
    std::uint8_t number = 0;
    if (!det_client_wait(&client_, next.stop, next.time.has_value(), next.time.value_or(0),
                         &number)) {
      return DeterministicErrc::kTooManyCycles;
    }
    activation_ = static_cast<ActivationReturnType>(number);
    if (activation_ == ActivationReturnType::kRun) BeginCycle();
    return *activation_;
  }

  /// The same, by its name in other releases of the standard.
  Result<ActivationReturnType> WaitForNextActivation() noexcept { return WaitForActivation(); }

  /// Runs the application's runnable once over each element of a container. Afterwards the elements
  /// are those that one thread makes of them in their order, for every number of workers.
  ///
  /// An error other than kApplicationThrew leaves the container as it was. If an exception left the
  /// runnable, the elements before the reported one were run, that element is as the runnable left
  /// it, and some of the later ones were run.
  ///
  /// A container with random access is used directly. Any other needs only `begin`, `end`, `*` and
  /// `++`; the addresses of its elements are listed first.
  template <typename ValueType, typename Container>
  Result<void> RunWorkerPool(WorkerRunnable<ValueType>& runnable, Container& container,
                             DrawCount draws = DrawCount::kEach) noexcept {
    internal::RunOnly<WorkerRunnable<ValueType>> work(runnable);
    return RunPassOver<ValueType>(work, container, draws);
  }

  /// The same with a function of an element and its `WorkerThread` or `InlineWorkerThread`.
  template <typename ValueType, typename Function, typename Container>
  Result<void> RunEach(Function& function, Container& container,
                       DrawCount draws = DrawCount::kEach) noexcept {
    using Thread = internal::ThreadOf<Function, ValueType>;
    struct {
      Function& function;
      void Run(ValueType& element, Thread& thread) { function(element, thread); }
    } runnable{function};
    internal::RunOnly<decltype(runnable), Thread> work(runnable);
    return RunPassOver<ValueType>(work, container, draws);
  }

  /// The same, and makes one value of all elements. Their container is cut into blocks, by its
  /// length alone. In each block a part begins as `empty`, and `function` gets each element, its
  /// `WorkerThread` and the part. `join(all, part)` then adds the parts to `empty` in the order of
  /// their blocks. So the value is the same for every number of workers, even if it depends on that
  /// order, as sums of floating point do. `join` runs on the caller's thread. A part is a plain
  /// value of at most 256 bytes. The parts of all blocks are on the caller's stack: 256 at most.
  template <typename ValueType, typename Part, typename Function, typename Join, typename Container>
  Result<Part> FoldEach(Part const& empty, Function& function, Join& join, Container& container,
                        DrawCount draws = DrawCount::kEach) noexcept {
    using Thread = internal::ThreadOf<Function, ValueType, Part&>;
    internal::RunAndFold<Function, Part, Thread> work(function, empty);
    Result<void> const run = RunPassOver<ValueType>(work, container, draws);
    if (!run) return run.Error();
    DET_EXEC_TRY { return work.Joined(blocks_, join); }
    DET_EXEC_CATCH_ALL { return DeterministicErrc::kApplicationThrew; }
  }

  /// Has the workers run the blocks of a work, at most this many at a time. The engine shares the
  /// spelling of elements in this way.
  void Share(internal::SharedWork& work, std::size_t blocks) noexcept {
    std::size_t const helpers = std::min(crew_->Threads(), std::max(blocks, std::size_t{1}) - 1);
    if (helpers == 0) {
      work.RunBlocks();
    } else {
      crew_->Do(work, helpers);
    }
  }

  /// The least element that refused in the last pass, if one did.
  std::optional<PassRefusal> Refused() const noexcept { return refused_; }

  /// The next random number of the client's own stream, which begins again with kInit, kRun and
  /// each seed.
  std::uint64_t GetRandom() noexcept { return det_client_random(&client_); }

  /// Sets the seed of all later random numbers.
  void SetRandomSeed(std::uint64_t seed) noexcept { det_client_set_seed(&client_, seed); }

  /// The time of the present cycle, and that plus the cycle time. They count from the origin of the
  /// source's times, so they are times of the steady clock if the source reads that clock.
  Result<ActivationTimeStamp> GetActivationTime() const noexcept {
    return Stamp(GetActivationNanoseconds());
  }
  Result<ActivationTimeStamp> GetNextActivationTime() const noexcept {
    return Stamp(GetNextActivationNanoseconds());
  }

  /// The same times as numbers, which hold every time.
  std::optional<std::uint64_t> GetActivationNanoseconds() const noexcept {
    return Time(&det_client_time);
  }
  std::optional<std::uint64_t> GetNextActivationNanoseconds() const noexcept {
    return Time(&det_client_next_time);
  }

  /// Refuses the present cycle: seed and own random numbers are as they were when it began, and no
  /// pass counts as run. The application restores its own state and its elements.
  Result<void> RefuseCycle() noexcept {
    if (activation_ != ActivationReturnType::kRun) return DeterministicErrc::kNotInCycle;
    client_ = begun_;
    ForgetPasses();
    return {};
  }

  /// How many random numbers each element drew since the cycle began, over all passes; 2^32 - 1
  /// means that many or more. There is a number for each element of the longest container. The next
  /// pass or cycle changes them.
  Span<std::uint32_t const> Draws() const noexcept { return {draws_.data(), drawn_}; }

  /// The number of the present cycle, from 1; 0 before the first one, and after kTerminate that of
  /// the last one.
  std::uint32_t Cycle() const noexcept { return det_client_cycle(&client_); }

  std::uint64_t Seed() const noexcept { return det_client_seed(&client_); }

  /// How many threads work in a pass, the caller's included.
  std::uint32_t Workers() const noexcept {
    return static_cast<std::uint32_t>(crew_->Threads()) + 1;
  }

 private:
  explicit DeterministicClient(ActivationSource& source) noexcept : source_(&source) {}

  void BeginCycle() noexcept {
    begun_ = client_;
    ForgetPasses();
  }

  void ForgetPasses() noexcept {
    passes_ = 0;
    drawn_ = 0;
    refused_.reset();
  }

  template <typename ValueType, typename Work, typename Container>
  Result<void> RunPassOver(Work& work, Container& container, DrawCount draws) noexcept {
    using std::begin;
    using std::end;
    using First = decltype(begin(container));
    static_assert(std::is_convertible_v<decltype(*begin(container)), ValueType&>,
                  "the container's elements are to be those of the runnable");
    DET_EXEC_TRY {
      if constexpr (internal::HasRandomAccess<First>::value) {
        auto const first = begin(container);
        auto const count = static_cast<std::size_t>(end(container) - first);
        Result<void> const ready = PreparePass(count, draws);
        return ready ? RunPass(work, internal::ByOffset<First>{first}, count, draws) : ready;
      } else {
        std::size_t const count = CountOf(begin(container), end(container));
        Result<void> const ready = PreparePass(count, draws);
        if (!ready) return ready;
        if (!places_.Grow(count)) return DeterministicErrc::kNoMemory;
        ListPlaces<ValueType>(begin(container), end(container));
        return RunPass(work, internal::ByTable<ValueType>{places_.data()}, count, draws);
      }
    }
    DET_EXEC_CATCH_ALL { return DeterministicErrc::kApplicationThrew; }
  }

  /// How many elements there are, counted up to one more than are allowed.
  template <typename First, typename Last>
  static std::size_t CountOf(First at, Last last) {
    std::size_t count = 0;
    for (; at != last && count <= kMostElements; ++at) ++count;
    return count;
  }

  template <typename ValueType, typename First, typename Last>
  void ListPlaces(First at, Last last) {
    for (std::size_t number = 0; at != last; ++at, ++number) {
      ValueType& element = *at;
      places_[number] = const_cast<void*>(static_cast<void const*>(std::addressof(element)));
    }
  }

  /// Makes room for the draws of a pass over `count` elements, if the pass is allowed.
  Result<void> PreparePass(std::size_t count, DrawCount draws) noexcept {
    if (count > kMostElements) return DeterministicErrc::kTooManyElements;
    if (passes_ == kMostPasses) return DeterministicErrc::kTooManyPasses;
    if (draws == DrawCount::kNone) return {};
    if (!draws_.Grow(count)) return DeterministicErrc::kNoMemory;
    for (; drawn_ < count; ++drawn_) draws_[drawn_] = 0;
    return {};
  }

  template <typename Work, typename Place>
  Result<void> RunPass(Work& work, Place place, std::size_t elements, DrawCount draws) noexcept {
    auto const count = static_cast<std::uint32_t>(elements);
    DetPassKeys keys;
    det_pass_keys(&keys, Seed(), Cycle(), passes_++);
    internal::Pass<Work, Place> pass(work, place, count, keys,
                                     draws == DrawCount::kEach ? draws_.data() : nullptr);
    blocks_ = det_block_count(count);
    Share(pass, blocks_);
    refused_.reset();
    if (pass.HasRefused()) refused_ = pass.Refused();
    if (pass.Thrown() == pass.kNone) return {};
    return DeterministicError{DeterministicErrc::kApplicationThrew, pass.Thrown()};
  }

  std::optional<std::uint64_t> Time(bool (*call)(DetClient const*, std::uint64_t*)) const noexcept {
    std::uint64_t time = 0;
    if (!call(&client_, &time)) return std::nullopt;
    return time;
  }

  static Result<ActivationTimeStamp> Stamp(std::optional<std::uint64_t> time) noexcept {
    using Count = std::chrono::nanoseconds::rep;
    if (!time) return DeterministicErrc::kNoTimeStampAvailable;
    if (*time > static_cast<std::uint64_t>(std::numeric_limits<Count>::max())) {
      return DeterministicErrc::kTimeStampTooLarge;
    }
    return ActivationTimeStamp(std::chrono::nanoseconds(static_cast<Count>(*time)));
  }

  ActivationSource* source_;
  DetClient client_{}, begun_{};
  std::optional<ActivationReturnType> activation_;
  std::uint8_t passes_ = 0;
  std::size_t drawn_ = 0, blocks_ = 0;
  std::optional<PassRefusal> refused_;
  internal::Array<std::uint32_t> draws_;
  internal::Array<void*> places_;
  std::unique_ptr<internal::Crew> crew_;
};

}  // namespace DET_EXEC_ABI
}  // namespace det::exec

#endif
