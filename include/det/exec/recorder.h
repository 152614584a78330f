// det::exec::Recorder: the record of a run, written part by part while the run goes on.
#ifndef DET_EXEC_RECORDER_H
#define DET_EXEC_RECORDER_H

#include <algorithm>
#include <cstddef>
#include <cstdint>
#include <initializer_list>
#include <iterator>
#include <optional>
#include <string_view>

#include "det/exec/det_record.h"
#include "det/exec/element_blocks.h"
#include "det/exec/event_window.h"
#include "det/exec/memory.h"
#include "det/exec/record_sink.h"
#include "det/exec/result.h"
#include "det/exec/version.h"

namespace det::exec {
inline namespace DET_EXEC_ABI {

/// Items in a row that a call only reads. The caller owns them.
template <typename T>
class Items {
 public:
  constexpr Items() noexcept = default;
  constexpr Items(T const* first, std::size_t count) noexcept : first_(first), count_(count) {}
  template <typename Container>
  constexpr Items(Container const& items) noexcept : Items(std::data(items), std::size(items)) {}
  /// Numbers in braces are no items: {0, 2} would be a null pointer and a count.
  constexpr Items(std::initializer_list<T>) = delete;

  /// Never null: the proved calls take no null pointer.
  T const* data() const noexcept { return count_ == 0 ? &nothing_ : first_; }
  std::size_t size() const noexcept { return count_; }

 private:
  inline static constexpr T nothing_{};
  T const* first_ = nullptr;
  std::size_t count_ = 0;
};

/// An event of a header. A recorder returns kOutOfRange for a name that isn't 1 to 32 of a-z, 0-9
/// and _.
inline DetEvent EventOf(std::string_view name, std::uint16_t capacity,
                        WindowPolicy policy = WindowPolicy::kLast) noexcept {
  DetEvent event{};
  std::copy_n(name.data(), std::min(name.size(), sizeof event.name), event.name);
  event.len = static_cast<std::uint8_t>(std::min(name.size(), std::size_t{255}));
  event.capacity = capacity;
  event.policy = static_cast<std::uint8_t>(policy);
  return event;
}

/// The part of a cycle in which it was refused.
enum class RefusalPhase : std::uint8_t { kPrepare = 0, kPool = 1, kConclude = 2 };

/// The inputs of a cycle: its time in nanoseconds, and the samples that arrived in it.
struct CycleInput {
  std::optional<std::uint64_t> time;
  Items<DetSample> samples;
};

/// The largest part of a record that is to come.
struct RecordShape {
  std::size_t elements = 0;        ///< at most 65,536
  std::size_t element_bytes = 64;  ///< of each, at most 64
  std::size_t samples = 0;         ///< of a cycle, at most 4,096
  std::size_t output = 0;          ///< bytes, at most 1,048,576
};

/// Writes a record to a sink: Header, Register, Discover, Init, cycles, Terminate. A part that is
/// out of place, has a value out of its range or finds no memory writes nothing, and another can be
/// written instead. If a write fails the record ends somewhere, and each later call returns
/// kWriteFailed.
class Recorder {
 public:
  /// The sink has to live as long as the recorder. The format is 1 or 2; any other number is 2.
  explicit Recorder(RecordSink& sink, std::uint8_t format = 2) noexcept : sink_(sink) {
    if (!det_record_new(&record_, format)) (void)det_record_new(&record_, 2);
  }
  Recorder(Recorder const&) = delete;
  Recorder& operator=(Recorder const&) = delete;

  /// Takes the memory for parts of at most this shape. Afterwards no call takes memory for such a
  /// part. Without it a call takes memory if its part is the largest so far.
  Result<void> Reserve(RecordShape const& shape) noexcept {
    if (shape.elements > kMostElements || shape.element_bytes > kMostElementBytes ||
        shape.samples > kMostSamples || shape.output > kMostOutput) {
      return DeterministicErrc::kOutOfRange;
    }
    std::size_t const bytes = kFixedBytes + kSampleBytes * shape.samples +
                              (kElementHead + shape.element_bytes) * shape.elements + shape.output;
    return buffer_.Grow(std::max(bytes, kFirstRoom)) ? Result<void>()
                                                     : Result<void>(DeterministicErrc::kNoMemory);
  }

  Result<void> Header(DetProfile const& profile, Items<std::int64_t> params = {},
                      Items<DetEvent> events = {}) noexcept {
    return WritePart([&](DetRecord* record, std::uint8_t* out, std::size_t room,
                         std::size_t* written) {
      return det_record_header(record, &profile, params.data(), params.size(), events.data(),
                               events.size(), out, room, written);
    });
  }

  Result<void> Register() noexcept { return WritePart(&det_record_register); }
  Result<void> Discover() noexcept { return WritePart(&det_record_discover); }

  Result<void> Init(Items<DetElement> elements) noexcept {
    return WritePart([&](DetRecord* record, std::uint8_t* out, std::size_t room,
                         std::size_t* written) {
      return det_record_init(record, elements.data(), elements.size(), out, room, written);
    });
  }

  Result<void> Finished(CycleInput const& input, Items<DetElement> elements,
                        Items<std::uint8_t> output = {}) noexcept {
    DetTime const time = TimeOf(input);
    return WritePart([&](DetRecord* record, std::uint8_t* out, std::size_t room,
                         std::size_t* written) {
      return det_record_finished(record, &time, input.samples.data(), input.samples.size(),
                                 elements.data(), elements.size(), output.data(), output.size(),
                                 out, room, written);
    });
  }

  /// The same part, for `count` elements that are nowhere as a list. `spell(number, element)` fills
  /// each in turn; `element` begins empty. An exception that leaves `spell` leaves this call, and
  /// nothing was written.
  template <typename Spell>
  Result<void> FinishedInPlace(CycleInput const& input, std::size_t count, Spell&& spell,
                               Items<std::uint8_t> output = {}) {
    if (failed_) return DeterministicErrc::kWriteFailed;
    if (count > kMostElements) return DeterministicErrc::kOutOfRange;
    return WriteCycle(input, static_cast<std::uint32_t>(count), output,
                      [&](DetRun& run) { return SpellEach(run, spell); });
  }

  /// The same part, whose elements several threads spell. `spell(number, room)` appends the bytes
  /// of an element to an `ElementRoom`, and returns its draws. `share(work, blocks)` has threads
  /// run the blocks of a work, as `DeterministicClient::Share` does. An element has at most
  /// `element_bytes`; if one has more, this thread spells all of them again, and can take memory.
  template <typename Spell, typename Share>
  Result<void> FinishedInBlocks(CycleInput const& input, std::size_t count,
                                std::size_t element_bytes, Spell const& spell, Share const& share,
                                Items<std::uint8_t> output) {
    if (failed_) return DeterministicErrc::kWriteFailed;
    if (count > kMostElements) return DeterministicErrc::kOutOfRange;
    bool are_good = true;
    Result<void> const done =
        WriteCycle(input, static_cast<std::uint32_t>(count), output, [&](DetRun& run) {
          std::uint8_t const answer = SpellBlocks(run, element_bytes, spell, share);
          are_good = answer != kNotInBlocks;
          return answer;
        });
    if (are_good) return done;
    auto const spell_one = [&spell](std::uint32_t number, DetElement& element) {
      ElementRoom room(element.bytes, kMostElementBytes);
      element.draws = spell(number, room);
      element.len = static_cast<std::uint8_t>(room.Size());
    };
    return FinishedInPlace(input, count, spell_one, output);
  }

  /// A cycle that was refused before its passes or after them. kPool means element 0 in pass 0.
  Result<void> Refused(CycleInput const& input, RefusalPhase phase, std::uint32_t code) noexcept {
    return Refused(input, DetRefusal{0, code, static_cast<std::uint8_t>(phase), 0});
  }

  /// A cycle that was refused in a pass, counted from 0, by the least element that refused.
  Result<void> RefusedInPass(CycleInput const& input, std::uint8_t pass, std::uint32_t element,
                             std::uint32_t code) noexcept {
    constexpr auto phase = static_cast<std::uint8_t>(RefusalPhase::kPool);
    return Refused(input, DetRefusal{element, code, phase, pass});
  }

  /// Writes the last part, and has the sink write what it holds back.
  Result<void> Terminate() noexcept {
    Result<void> const done = WritePart(&det_record_terminate);
    if (done && !sink_.Finish()) failed_ = true;
    return failed_ ? DeterministicErrc::kWriteFailed : done;
  }

 private:
  /// The bytes of a finished cycle besides those of samples, elements and output: its tag, its
  /// time, the outcome and three counts. Then those of a sample, and of an element's length and
  /// draws.
  static constexpr std::size_t kFixedBytes = 23, kSampleBytes = 10, kElementHead = 6;
  static constexpr std::size_t kMostElements = 65536, kMostElementBytes = 64;
  static constexpr std::size_t kMostSamples = 4096, kMostOutput = 1048576;
  static constexpr std::size_t kMostRoom = kFixedBytes + kMostSamples * kSampleBytes +
                                           kMostElements * (kElementHead + kMostElementBytes) +
                                           kMostOutput;
  static constexpr std::size_t kFirstRoom = 4096;
  /// Answers of no proved call: there is no memory for the buffer, and elements that can't be
  /// spelled in blocks.
  static constexpr std::uint8_t kNoMemory = 255, kNotInBlocks = 254;

  static DetTime TimeOf(CycleInput const& input) noexcept {
    return DetTime{input.time.value_or(0), input.time.has_value()};
  }

  Result<void> Refused(CycleInput const& input, DetRefusal const& refusal) noexcept {
    DetTime const time = TimeOf(input);
    return WritePart([&](DetRecord* record, std::uint8_t* out, std::size_t room,
                         std::size_t* written) {
      return det_record_refused(record, &time, input.samples.data(), input.samples.size(),
                                &refusal, out, room, written);
    });
  }

  template <typename Part>
  Result<void> WritePart(Part const& part) noexcept {
    if (failed_) return DeterministicErrc::kWriteFailed;
    used_ = 0;
    DetRecord record = record_;
    std::uint8_t const answer =
        Spell([&](std::uint8_t* out, std::size_t room, std::size_t* written) {
          return part(&record, out, room, written);
        });
    return Settle(answer, record);
  }

  /// Writes a finished cycle, whose elements `spell_elements` appends to the buffer.
  template <typename SpellElements>
  Result<void> WriteCycle(CycleInput const& input, std::uint32_t count,
                          Items<std::uint8_t> output, SpellElements const& spell_elements) {
    used_ = 0;
    DetRecord record = record_;
    DetTime const time = TimeOf(input);
    DetRun run{};
    std::uint8_t answer = Spell([&](std::uint8_t* out, std::size_t room, std::size_t* written) {
      return det_run_open(&run, &record, &time, input.samples.data(), input.samples.size(), count,
                          out, room, written);
    });
    if (answer == DET_RECORD_DONE) answer = spell_elements(run);
    if (answer == DET_RECORD_DONE) {
      answer = Spell([&](std::uint8_t* out, std::size_t room, std::size_t* written) {
        return det_run_close(&run, &record, output.data(), output.size(), out, room, written);
      });
    }
    return Settle(answer, record);
  }

  template <typename SpellElement>
  std::uint8_t SpellEach(DetRun& run, SpellElement& spell) {
    std::uint8_t answer = DET_RECORD_DONE;
    std::uint32_t const count = run.left;
    for (std::uint32_t i = 0; answer == DET_RECORD_DONE && i < count; ++i) {
      DetElement element;
      element.len = 0;
      element.draws = 0;
      spell(i, element);
      if (element.len > kMostElementBytes) return DET_RECORD_OUT_OF_RANGE;
      answer = Spell([&](std::uint8_t* out, std::size_t room, std::size_t* written) {
        return det_run_element(&run, element.bytes, element.len, element.draws, out, room, written);
      });
    }
    return answer;
  }

  template <typename SpellElement, typename Share>
  std::uint8_t SpellBlocks(DetRun& run, std::size_t element_bytes, SpellElement const& spell,
                           Share const& share) {
    using Blocks = internal::ElementBlocks<SpellElement>;
    std::uint32_t const count = run.left;
    if (!buffer_.Grow(used_ + count * Blocks::BytesOf(record_.format, element_bytes))) {
      return kNoMemory;
    }
    Blocks blocks(spell, record_.format, count, element_bytes, buffer_.data() + used_);
    share(blocks, det_block_count(count));
    if (!blocks.AreGood()) return kNotInBlocks;
    used_ += blocks.Join();
    return det_run_elements(&run, count);
  }

  /// Appends the bytes of a proved call to the buffer, with more room as long as the call asks for
  /// it.
  template <typename Call>
  std::uint8_t Spell(Call const& call) noexcept {
    for (;;) {
      std::size_t written = 0;
      std::uint8_t answer = DET_RECORD_NO_ROOM;
      if (used_ < buffer_.size()) {
        answer = call(buffer_.data() + used_, buffer_.size() - used_, &written);
      }
      if (answer == DET_RECORD_DONE) used_ += written;
      if (answer != DET_RECORD_NO_ROOM) return answer;
      if (!MakeRoom()) return kNoMemory;
    }
  }

  /// Doubles the room, up to that of the largest part.
  bool MakeRoom() noexcept {
    std::size_t const room = buffer_.size();
    return room != kMostRoom && buffer_.Grow(std::min(std::max(2 * room, kFirstRoom), kMostRoom));
  }

  /// Writes the part in the buffer if it was spelled. Then the record has come to `after`.
  Result<void> Settle(std::uint8_t answer, DetRecord const& after) noexcept {
    if (answer == DET_RECORD_MISPLACED) return DeterministicErrc::kMisplaced;
    if (answer == DET_RECORD_OUT_OF_RANGE) return DeterministicErrc::kOutOfRange;
    if (answer != DET_RECORD_DONE) return DeterministicErrc::kNoMemory;
    record_ = after;
    failed_ = !sink_.Write(buffer_.data(), used_);
    if (failed_) return DeterministicErrc::kWriteFailed;
    return {};
  }

  RecordSink& sink_;
  DetRecord record_{};
  internal::Array<std::uint8_t> buffer_;
  std::size_t used_ = 0;
  bool failed_ = false;
};

}  // namespace DET_EXEC_ABI
}  // namespace det::exec

#endif
