// The job of an application: what it does at its initialization and in a cycle. The engine does
// what is around it: activations, windows, refused cycles, records.
#ifndef DET_EXEC_JOB_H
#define DET_EXEC_JOB_H

#include <cstddef>
#include <cstdint>
#include <cstring>
#include <iterator>
#include <optional>
#include <type_traits>
#include <utility>

#include "det/exec/det_types.h"
#include "det/exec/deterministic_client.h"
#include "det/exec/memory.h"
#include "det/exec/recorder.h"
#include "det/exec/spelling.h"
#include "det/exec/version.h"

namespace det::exec {
inline namespace DET_EXEC_ABI {

/// The parameters of a manifest or a record, taken in their order. A parameter is bad if it is
/// missing, out of its range or after the last one that is taken.
class Parameters {
 public:
  Parameters(Span<std::int64_t const> params, std::size_t events) noexcept
      : params_(params), events_(events) {}

  /// The next parameter, or `least` if it is bad. The job isn't used then, so it needn't look.
  std::int64_t Take(char const* name, std::int64_t least, std::int64_t most) noexcept {
    std::size_t const number = taken_++;
    bool const good =
        number < params_.size() && least <= params_[number] && params_[number] <= most;
    if (!good && !bad_) bad_ = BadParameter{number, name, least, most};
    return good ? params_[number] : least;
  }

  /// How many events there are.
  std::size_t Events() const noexcept { return events_; }

  /// A parameter, counted from 0, with the range that it should be in. The name is null for one too
  /// many.
  struct BadParameter {
    std::size_t number;
    char const* name;
    std::int64_t least, most;
  };

  /// The first bad parameter.
  std::optional<BadParameter> Bad() const noexcept {
    if (bad_ || params_.size() <= taken_) return bad_;
    return BadParameter{taken_, nullptr, 0, 0};
  }

 private:
  Span<std::int64_t const> params_;
  std::size_t events_, taken_ = 0;
  std::optional<BadParameter> bad_;
};

/// Bytes up to a length that is reserved.
class BoundedBytes {
 public:
  /// Takes memory. False if there is none.
  bool Reserve(std::size_t most) noexcept {
    most_ = most;
    return bytes_.Grow(most);
  }
  void Clear() noexcept { size_ = 0; }
  /// Whether more bytes were appended than are reserved.
  bool Overflowed() const noexcept { return size_ > most_; }
  std::uint8_t const* data() const noexcept { return bytes_.data(); }
  std::size_t size() const noexcept { return size_; }
  std::size_t Most() const noexcept { return most_; }

  friend void Append(BoundedBytes& bytes, std::uint8_t const* more, std::size_t count) noexcept {
    if (bytes.Overflowed() || count > bytes.most_ - bytes.size_) {
      bytes.size_ = bytes.most_ + 1;
      return;
    }
    std::memcpy(bytes.bytes_.data() + bytes.size_, more, count);
    bytes.size_ += count;
  }

 private:
  internal::Array<std::uint8_t> bytes_;
  std::size_t size_ = 0, most_ = 0;
};

using ElementSpelling = Spelling<ElementRoom>;
using OutputSpelling = Spelling<BoundedBytes>;

/// The state of a job that has none.
struct NoState {};

/// The base of an application's job, which adds to it:
///
///     static constexpr char const* kName = "tracker";       // `job` in the manifest
///     static constexpr std::uint16_t kNumber = 77;          // in the record's header
///     explicit Tracker(Parameters& params);                 // none for a job without parameters
///     void Init(Start<Tracker>& start) const;               // kInit: makes the elements
///     void Run(Cycle<Tracker>& cycle) const;                // kRun
///     static void Spell(ElementT const&, ElementSpelling&); // none for whole numbers
///
/// The job itself is constant. Its elements and its state change. Both are plain values: the engine
/// copies them before each cycle, and restores them if the cycle is refused.
template <typename ElementT, typename StateT = NoState>
class Job {
 public:
  using Element = ElementT;
  using State = StateT;
  static_assert(std::is_trivially_copyable_v<Element> && std::is_trivially_copyable_v<State>,
                "elements and state are copied in each cycle, without memory and without errors");

  /// Writes a whole number in as many bytes as it has.
  static void Spell(Element const& element, ElementSpelling& out) noexcept {
    static_assert(std::is_integral_v<Element>, "a job says how its elements are spelled: Spell");
    if constexpr (sizeof(Element) == 1) out.U8(static_cast<std::uint8_t>(element));
    if constexpr (sizeof(Element) == 2) out.U16(static_cast<std::uint16_t>(element));
    if constexpr (sizeof(Element) == 4) out.U32(static_cast<std::uint32_t>(element));
    if constexpr (sizeof(Element) == 8) out.U64(static_cast<std::uint64_t>(element));
  }
};

/// What a job sees both at its initialization and in a cycle.
template <typename J>
class JobContext {
 public:
  using Element = typename J::Element;

  Span<Element> Elements() noexcept { return {elements_->data(), elements_->size()}; }
  typename J::State& State() noexcept { return *state_; }
  /// The next random number of the client's own stream.
  std::uint64_t GetRandom() noexcept { return client_->GetRandom(); }
  std::uint64_t Seed() const noexcept { return client_->Seed(); }
  DeterministicClient& Client() noexcept { return *client_; }

  /// Ends the run with this error. The first error counts.
  void Fail(DeterministicErrc code) noexcept { Fail(DeterministicError{code}); }
  void Fail(DeterministicError error) noexcept {
    if (!error_) error_ = error;
  }
  std::optional<DeterministicError> Error() const noexcept { return error_; }

 protected:
  JobContext(DeterministicClient& client, internal::Array<Element>& elements,
             typename J::State& state) noexcept
      : client_(&client), elements_(&elements), state_(&state) {}

  DeterministicClient* client_;
  internal::Array<Element>* elements_;
  typename J::State* state_;
  std::optional<DeterministicError> error_;
};

/// The initialization, in which a job says how large its parts are.
template <typename J>
class Start : public JobContext<J> {
 public:
  using Element = typename J::Element;

  Start(DeterministicClient& client, internal::Array<Element>& elements, typename J::State& state,
        BoundedBytes& output) noexcept
      : JobContext<J>(client, elements, state), output_(&output) {}

  /// Makes the job's elements, at most 65,536, each with this value. It is called at most once;
  /// their number stays the same for the whole run.
  Span<Element> Resize(std::size_t count, Element const& each = Element{}) noexcept {
    if (count > DeterministicClient::kMostElements) {
      this->Fail(DeterministicErrc::kTooManyElements);
    } else if (!this->elements_->Grow(count)) {
      this->Fail(DeterministicErrc::kNoMemory);
    } else {
      for (Element& element : this->Elements()) element = each;
    }
    return this->Elements();
  }

  /// An output has at most this many bytes. The default is 256, and the most 1,048,576; with more
  /// the run doesn't begin, by kOutOfRange.
  void ReserveOutput(std::size_t bytes) noexcept {
    if (!output_->Reserve(bytes)) this->Fail(DeterministicErrc::kNoMemory);
  }

  /// An element is written in at most this many bytes. The default is 64, which is the most. A
  /// smaller number saves memory.
  void ReserveElement(std::size_t bytes) noexcept { element_bytes_ = bytes; }
  std::size_t ElementBytes() const noexcept { return element_bytes_; }

 private:
  BoundedBytes* output_;
  std::size_t element_bytes_ = 64;
};

/// A cycle.
template <typename J>
class Cycle : public JobContext<J> {
 public:
  using Element = typename J::Element;

  Cycle(DeterministicClient& client, internal::Array<Element>& elements, typename J::State& state,
        BoundedBytes& output, Span<EventWindow const> events) noexcept
      : JobContext<J>(client, elements, state), output_(&output), events_(events) {}

  /// Cycles count from 1.
  std::uint32_t Number() const noexcept { return this->client_->Cycle(); }
  /// The time of this cycle and that of the next one, in nanoseconds.
  std::optional<std::uint64_t> Time() const noexcept {
    return this->client_->GetActivationNanoseconds();
  }
  std::optional<std::uint64_t> NextTime() const noexcept {
    return this->client_->GetNextActivationNanoseconds();
  }
  void SetRandomSeed(std::uint64_t seed) noexcept { this->client_->SetRandomSeed(seed); }

  /// The windows of all events, in the manifest's order. They show samples of earlier cycles; the
  /// samples of this cycle arrive when it ends.
  Span<EventWindow const> Events() const noexcept { return events_; }
  /// The newest sample that the window of an event shows. None for an event that isn't there.
  std::optional<std::int64_t> Newest(std::size_t event) const noexcept {
    return event < events_.size() ? events_[event].Newest() : std::nullopt;
  }

  /// Runs a pass over the job's elements: a `WorkerRunnable`, or a function of an element and its
  /// `WorkerThread` or `InlineWorkerThread`. False if the cycle ends here: an element refused, an
  /// exception left the function, or it is the ninth pass. The job then returns; the engine does
  /// the rest.
  template <typename Work>
  bool Pass(Work&& work) noexcept {
    Span<Element> elements = this->Elements();
    return PassOver(work, elements, DrawCount::kEach);
  }

  /// Runs a pass over another container, whose elements are in the job's state. They draw random
  /// numbers, which the record doesn't count.
  template <typename Work, typename Container>
  bool Pass(Work&& work, Container& container) noexcept {
    return PassOver(work, container, DrawCount::kNone);
  }

  /// Runs a pass over the job's elements that also makes one value of them, the same for every
  /// number of workers. `work` is a function of an element, its `WorkerThread` and a part, which
  /// begins as `empty` in each block; `join(all, part)` adds the parts in the order of the blocks.
  /// `DeterministicClient::FoldEach` says more. No value if the cycle ends here.
  template <typename Part, typename Work, typename Join>
  std::optional<Part> Fold(Part const& empty, Work&& work, Join&& join) noexcept {
    if (HasEnded()) return std::nullopt;
    Span<Element> elements = this->Elements();
    Result<Part> const run =
        this->client_->template FoldEach<Element>(empty, work, join, elements);
    return EndPass(run) ? std::optional<Part>(*run) : std::nullopt;
  }

  /// Refuses the cycle: in its phase `prepare` before the first pass, else in `conclude`. The first
  /// refusal of a cycle counts.
  void Refuse(std::uint32_t code) noexcept {
    if (HasEnded()) return;
    auto const phase = passes_ == 0 ? RefusalPhase::kPrepare : RefusalPhase::kConclude;
    refusal_ = DetRefusal{0, code, static_cast<std::uint8_t>(phase), 0};
  }
  std::optional<DetRefusal> Refusal() const noexcept { return refusal_; }

  /// Writes at the end of this cycle's output, which begins empty. It is dropped if the cycle is
  /// refused.
  OutputSpelling Output() noexcept { return OutputSpelling(*output_); }

 private:
  bool HasEnded() const noexcept { return this->error_ || refusal_; }

  template <typename Work, typename Container>
  bool PassOver(Work& work, Container& container, DrawCount count) noexcept {
    if (HasEnded()) return false;
    return EndPass(RunOver(work, container, count));
  }

  /// Keeps what ended the cycle, if something did.
  template <typename Value>
  bool EndPass(Result<Value> const& run) noexcept {
    if (!run) {
      this->Fail(run.Error());
    } else if (auto const refused = this->client_->Refused()) {
      refusal_ = DetRefusal{refused->element, refused->code,
                            static_cast<std::uint8_t>(RefusalPhase::kPool), passes_};
    }
    ++passes_;
    return !HasEnded();
  }

  /// A runnable is called as what it is, so a final one needs no virtual call.
  template <typename Work, typename Container,
            typename ValueType =
                std::remove_pointer_t<decltype(internal::ElementOf(std::declval<Work*>()))>>
  Result<void> RunOver(Work& runnable, Container& container, DrawCount count) noexcept {
    auto const run = [&runnable](ValueType& element, WorkerThread& thread) {
      runnable.Run(element, thread);
    };
    return this->client_->template RunEach<ValueType>(run, container, count);
  }
  template <typename Work, typename Container,
            typename ValueType =
                std::remove_reference_t<decltype(*std::begin(std::declval<Container&>()))>,
            typename = decltype(std::declval<Work&>()(
                std::declval<ValueType&>(),
                std::declval<internal::ThreadOf<Work, ValueType>&>()))>
  Result<void> RunOver(Work& work, Container& container, DrawCount count) noexcept {
    return this->client_->template RunEach<ValueType>(work, container, count);
  }

  BoundedBytes* output_;
  Span<EventWindow const> events_;
  std::uint8_t passes_ = 0;
  std::optional<DetRefusal> refusal_;
};

}  // namespace DET_EXEC_ABI
}  // namespace det::exec

#endif
