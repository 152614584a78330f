// A pass: the application's runnable runs over the elements of a container, on one thread or
// several. An element draws the same random numbers on each thread.
#ifndef DET_EXEC_WORKER_POOL_H
#define DET_EXEC_WORKER_POOL_H

#include <algorithm>
#include <atomic>
#include <cstddef>
#include <cstdint>
#include <iterator>
#include <limits>
#include <type_traits>

#include "det/exec/det_client.h"
#include "det/exec/result.h"
#include "det/exec/threads.h"
#include "det/exec/version.h"

namespace det::exec {
inline namespace DET_EXEC_ABI {

namespace internal {
template <typename Work, typename Place>
class Pass;
}

namespace internal {

/// One step of xoshiro256++.
inline std::uint64_t NextNumber(std::uint64_t (&state)[4]) noexcept {
  auto const rotate = [](std::uint64_t number, unsigned by) {
    return (number << by) | (number >> (64 - by));
  };
  std::uint64_t const number = rotate(state[0] + state[3], 23) + state[0];
  std::uint64_t const shifted = state[1] << 17;
  state[2] ^= state[0];
  state[3] ^= state[1];
  state[1] ^= state[2];
  state[0] ^= state[3];
  state[2] ^= shifted;
  state[3] = rotate(state[3], 45);
  return number;
}

/// The number of SplitMix64 in this state, after what it adds to it.
inline std::uint64_t SplitMix(std::uint64_t state) noexcept {
  state = (state ^ (state >> 30)) * 0xbf58476d1ce4e5b9;
  state = (state ^ (state >> 27)) * 0x94d049bb133111eb;
  return state ^ (state >> 31);
}

/// The state of the stream of an element in a pass, as det_random_in_pass gives it.
inline void StartStream(std::uint64_t (&state)[4], DetPassKeys const& keys,
                        std::uint32_t element) noexcept {
  constexpr std::uint64_t kStep = 0x9e3779b97f4a7c15;
  std::uint64_t const place = std::uint64_t{keys.pass} << 32 | element;
  std::uint64_t const key = SplitMix((keys.shared ^ place) + kStep);
  for (unsigned k = 0; k < 4; ++k) state[k] = SplitMix(key + (k + 1) * kStep);
}

}  // namespace internal

/// One element in one pass, beside its random numbers.
class ElementInPass {
 public:
  ElementInPass(ElementInPass const&) = delete;
  ElementInPass& operator=(ElementInPass const&) = delete;

  /// The element's number in the container, from 0.
  std::uint32_t Element() const noexcept { return element_; }

  /// The element refuses the cycle for a reason of the application; its first code counts. The
  /// other elements are still run. If several refuse, the least one is reported, so the number of
  /// workers changes nothing.
  void Refuse(std::uint32_t code) noexcept {
    if (refused_) return;
    refused_ = true;
    code_ = code;
  }

 protected:
  explicit ElementInPass(std::uint32_t element) noexcept : element_(element) {}
  ~ElementInPass() = default;

 private:
  template <typename Work, typename Place>
  friend class internal::Pass;

  std::uint32_t element_, code_ = 0;
  bool refused_ = false;
};

/// The random numbers of one element in one pass. It exists while the element is run.
class WorkerThread : public ElementInPass {
 public:
  WorkerThread(DetPassKeys const& keys, std::uint32_t element) noexcept : ElementInPass(element) {
    det_random_in_pass(&random_, &keys, element);
  }

  /// The element's next random number, by the proved call.
  std::uint64_t GetRandom() noexcept { return det_random_next(&random_); }

  /// The same number by a step of xoshiro256++ that is inlined here and isn't proved. It is faster
  /// in a loop that draws many numbers.
  std::uint64_t GetRandomInline() noexcept {
    ++random_.draws;
    return internal::NextNumber(random_.state);
  }

  /// How many random numbers the element drew in this pass.
  std::uint64_t Draws() const noexcept { return random_.draws; }

 private:
  DetRandom random_;
};

/// The same numbers by code that is inlined here and isn't proved, also for the start of the
/// stream. It is faster where an element draws few numbers. A function of a pass takes it in place
/// of a `WorkerThread`.
class InlineWorkerThread : public ElementInPass {
 public:
  InlineWorkerThread(DetPassKeys const& keys, std::uint32_t element) noexcept
      : ElementInPass(element) {
    internal::StartStream(state_, keys, element);
  }

  std::uint64_t GetRandom() noexcept {
    ++draws_;
    return internal::NextNumber(state_);
  }

  std::uint64_t Draws() const noexcept { return draws_; }

 private:
  std::uint64_t state_[4], draws_ = 0;
};

/// What the application does with one element in a pass. Several threads call `Run` at a time, once
/// for each element, so it changes only its element.
template <typename ValueType>
class WorkerRunnable {
 public:
  virtual ~WorkerRunnable() = default;
  virtual void Run(ValueType& element, WorkerThread& thread) = 0;
};

/// The least element that refused in a pass, and its code.
struct PassRefusal {
  std::uint32_t element, code;
};

namespace internal {

/// The type of the elements of a runnable.
template <typename ValueType>
ValueType* ElementOf(WorkerRunnable<ValueType>* runnable);

template <typename First, typename = void>
struct HasRandomAccess : std::false_type {};
template <typename First>
struct HasRandomAccess<First,
                       std::void_t<typename std::iterator_traits<First>::iterator_category>>
    : std::is_base_of<std::random_access_iterator_tag,
                      typename std::iterator_traits<First>::iterator_category> {};

/// The elements of a container with random access.
template <typename First>
struct ByOffset {
  First first;
  decltype(auto) operator[](std::uint32_t number) const {
    using Distance = decltype(first - first);
    return first[static_cast<Distance>(number)];
  }
};

/// The elements of another container, by a table of their addresses.
template <typename ValueType>
struct ByTable {
  void* const* places;
  ValueType& operator[](std::uint32_t number) const {
    return *static_cast<ValueType*>(places[number]);
  }
};

/// The most blocks that a container of at most 65,536 elements has.
inline constexpr std::size_t kMostBlocks = 256;

/// A `WorkerThread` if a function of a pass takes one, else an `InlineWorkerThread`. `More` are the
/// types of its further arguments.
template <typename Function, typename ValueType, typename... More>
using ThreadOf =
    std::conditional_t<std::is_invocable_v<Function&, ValueType&, WorkerThread&, More...>,
                       WorkerThread, InlineWorkerThread>;

/// What a pass does that only changes its elements.
template <typename Runnable, typename ThreadT = WorkerThread>
class RunOnly {
 public:
  using Thread = ThreadT;
  struct Part {};

  explicit RunOnly(Runnable& runnable) noexcept : runnable_(runnable) {}

  Part Empty() const noexcept { return {}; }
  template <typename ValueType>
  void Run(ValueType& element, Thread& thread, Part&) {
    runnable_.Run(element, thread);
  }
  void Keep(std::uint32_t, Part const&) noexcept {}

 private:
  Runnable& runnable_;
};

/// What a pass does that also makes a part of each block.
template <typename Function, typename PartT, typename ThreadT>
class RunAndFold {
 public:
  using Part = PartT;
  using Thread = ThreadT;
  static_assert(std::is_trivially_copyable_v<Part> && sizeof(Part) <= 256,
                "a part is a plain value of at most 256 bytes");

  RunAndFold(Function& function, Part const& empty) noexcept
      : function_(function), empty_(empty) {}

  Part Empty() const noexcept { return empty_; }
  template <typename ValueType>
  void Run(ValueType& element, Thread& thread, Part& part) {
    function_(element, thread, part);
  }
  void Keep(std::uint32_t block, Part const& part) noexcept { parts_[block].part = part; }

  /// The parts of the first blocks, joined in their order.
  template <typename Join>
  Part Joined(std::size_t blocks, Join& join) const {
    Part all = empty_;
    for (std::size_t k = 0; k < blocks; ++k) join(all, parts_[k].part);
    return all;
  }

 private:
  union Slot {
    Slot() noexcept {}
    Part part;
  };

  Function& function_;
  Part const& empty_;
  Slot parts_[kMostBlocks];
};

/// One pass. Each thread claims the next block of elements until there is none.
template <typename Work, typename Place>
class Pass final : public SharedWork {
 public:
  /// The number of no element.
  static constexpr std::uint32_t kNone = std::numeric_limits<std::uint32_t>::max();

  /// `draws` has a sum for each element, or is null.
  Pass(Work& work, Place place, std::uint32_t count, DetPassKeys keys,
       std::uint32_t* draws) noexcept
      : work_(work), place_(place), count_(count), keys_(keys), draws_(draws) {}

  void RunBlocks() noexcept override {
    std::uint32_t begin = 0, end = 0;
    while (thrown_.load() == kNone) {
      std::uint32_t const block = claimed_.fetch_add(1);
      if (!det_block(count_, block, &begin, &end)) return;
      RunBlock(block, begin, end);
    }
  }

  /// The least element whose run threw. All blocks before its own were claimed and run, so one
  /// thread would meet the same element first.
  std::uint32_t Thrown() const noexcept { return thrown_.load(); }

  bool HasRefused() const noexcept { return refused_.load() != kNobody; }
  PassRefusal Refused() const noexcept {
    std::uint64_t const found = refused_.load();
    return {static_cast<std::uint32_t>(found >> 32), static_cast<std::uint32_t>(found)};
  }

 private:
  static constexpr std::uint64_t kNobody = std::numeric_limits<std::uint64_t>::max();

  void RunBlock(std::uint32_t block, std::uint32_t begin, std::uint32_t end) noexcept {
    std::uint32_t at = begin;
    DET_EXEC_TRY {
      auto part = work_.Empty();
      for (; at != end; ++at) {
        typename Work::Thread thread(keys_, at);
        work_.Run(place_[at], thread, part);
        if (draws_ != nullptr) AddDraws(draws_[at], thread.Draws());
        if (thread.refused_) KeepLeast(refused_, std::uint64_t{at} << 32 | thread.code_);
      }
      work_.Keep(block, part);
    }
    DET_EXEC_CATCH_ALL { KeepLeast(thrown_, at); }
  }

  /// The sum stays at 2^32 - 1, the most that a record holds.
  static void AddDraws(std::uint32_t& sum, std::uint64_t draws) noexcept {
    std::uint64_t const room = std::numeric_limits<std::uint32_t>::max() - sum;
    sum += static_cast<std::uint32_t>(std::min(draws, room));
  }

  template <typename Number>
  static void KeepLeast(std::atomic<Number>& place, Number number) noexcept {
    Number least = place.load();
    while (number < least && !place.compare_exchange_weak(least, number)) {
    }
  }

  Work& work_;
  Place const place_;
  std::uint32_t const count_;
  DetPassKeys const keys_;
  std::uint32_t* const draws_;
  alignas(64) std::atomic<std::uint32_t> claimed_{0};
  std::atomic<std::uint32_t> thrown_{kNone};
  std::atomic<std::uint64_t> refused_{kNobody};
};

}  // namespace internal
}  // namespace DET_EXEC_ABI
}  // namespace det::exec

#endif
