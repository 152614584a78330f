// A stimulus as a file, read block by block.
#ifndef DET_EXEC_STIMULUS_READER_H
#define DET_EXEC_STIMULUS_READER_H

#include <cstddef>
#include <cstdint>

#include "det/exec/det_stimulus.h"
#include "det/exec/det_verdict.h"
#include "det/exec/file_input.h"
#include "det/exec/memory.h"
#include "det/exec/outcome.h"
#include "det/exec/version.h"

namespace det::exec {
inline namespace DET_EXEC_ABI {
namespace internal {

/// What det's hint on a bad line says is wanted; after that of an event comes the number of events.
/// Null if a good line comes next.
constexpr char const* WantedText(std::uint8_t wanted) noexcept {
  switch (wanted) {
    case DET_WANTED_FIRST_LINE: return "stim 1";
    case DET_WANTED_FIRST_BLOCK: return "cycle T, cycle - or terminate";
    case DET_WANTED_LINE: return "cycle T, cycle -, sample E V or terminate";
    case DET_WANTED_NO_MORE: return "nothing behind terminate";
    case DET_WANTED_SHORT_LINE: return "a line of at most 128 bytes";
    case DET_WANTED_NO_RETURN: return "no carriage return at the end of a line";
    case DET_WANTED_TIME: return "T as a decimal, 0 to 18446744073709551615";
    case DET_WANTED_EVENT: return "E as a decimal below ";
    case DET_WANTED_VALUE: return "V as a decimal, -1000000000000 to 1000000000000";
    case DET_WANTED_FEW_SAMPLES: return "at most 4096 samples in a cycle";
    case DET_WANTED_LINE_FEED: return "a line feed at the end";
    default: return nullptr;
  }
}

}  // namespace internal

/// A complete block of a stimulus, or its end.
struct Block {
  bool terminate = false;
  DetTime time{};
  Span<DetSample const> samples;
};

/// Reads a stimulus. Memory is only taken by `Open`.
class StimulusReader {
 public:
  /// `events` is the number of events of the run, at most 256.
  explicit StimulusReader(std::size_t events) noexcept {
    det_stimulus_new(&stimulus_, static_cast<std::uint16_t>(events));
  }

  Outcome Open(char const* name) noexcept {
    if (!samples_.Grow(kMostSamples)) return Outcome::OfStatus(DET_STATUS_OUT_OF_MEMORY);
    return file_.Open(name);
  }

  /// Reads the next complete block. Its samples stay until the next call. After `terminate` the
  /// stimulus is whole and was read to its end.
  Outcome Next(Block& block) noexcept {
    if (has_ended_) return Finish(block);
    count_ = 0;
    for (;;) {
      DetStimulusStep step{};
      Outcome const filled = file_.Fill(kLineBytes);
      if (!filled.IsDone()) return filled;
      std::uint8_t const found =
          det_stimulus_step(&stimulus_, file_.Bytes(), file_.Count(), &step);
      file_.Drop(step.taken);
      if (found == DET_STIMULUS_MORE || found == DET_STIMULUS_BAD) return Bad(stimulus_.lines + 1);
      if (found == DET_STIMULUS_SAMPLE) samples_[count_++] = step.sample;
      has_ended_ = found == DET_STIMULUS_TERMINATE;
      if (found != DET_STIMULUS_CYCLE && !has_ended_) continue;
      bool const is_whole = is_inside_;
      block = Block{false, time_, {samples_.data(), count_}};
      time_ = step.time;
      is_inside_ = !has_ended_;
      if (is_whole) return Outcome();
      if (has_ended_) return Finish(block);
    }
  }

 private:
  static constexpr std::size_t kMostSamples = 4096;
  /// The longest line with its line feed. The proved call looks at no more.
  static constexpr std::size_t kLineBytes = 129;

  /// Nothing may follow the last line.
  Outcome Finish(Block& block) noexcept {
    block = Block{true, {}, {}};
    Outcome const filled = file_.Fill(1);
    if (!filled.IsDone()) return filled;
    std::uint64_t line = 0;
    return det_stimulus_end(&stimulus_, file_.Count(), &line) ? Outcome() : Bad(line);
  }

  /// A bad line where the bytes of the file begin, with det's hint.
  Outcome Bad(std::uint64_t line) const noexcept {
    Outcome outcome = Outcome::Of(DET_STATUS_BAD_STIMULUS, [line](DetText& text) {
      det_text_bad_stimulus(line, &text);
    });
    std::uint8_t const wanted = det_stimulus_wanted(&stimulus_, file_.Bytes(), file_.Count());
    char const* const text = internal::WantedText(wanted);
    if (text == nullptr) return outcome;
    outcome.Add("  wanted: ").Add(text);
    if (wanted == DET_WANTED_EVENT) outcome.AddNumber(stimulus_.events);
    return outcome.Add("\n");
  }

  FileInput file_;
  DetStimulus stimulus_;
  internal::Array<DetSample> samples_;
  std::size_t count_ = 0;
  DetTime time_{};
  bool is_inside_ = false, has_ended_ = false;
};

}  // namespace DET_EXEC_ABI
}  // namespace det::exec

#endif
