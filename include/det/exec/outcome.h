// How a command, or a reader, ended: its exit status, and its text for standard error.
#ifndef DET_EXEC_OUTCOME_H
#define DET_EXEC_OUTCOME_H

#include <algorithm>
#include <cerrno>
#include <cstddef>
#include <cstdint>
#include <cstring>

#include "det/exec/det_verdict.h"
#include "det/exec/memory.h"
#include "det/exec/result.h"
#include "det/exec/version.h"

namespace det::exec {
inline namespace DET_EXEC_ABI {

/// An exit status of `det`, or 70 for a fault of the job, with its line and hints. It owns its
/// text, at most 1,024 bytes; more is cut off. Nothing takes memory.
class Outcome {
 public:
  /// Done, without a text.
  Outcome() noexcept = default;

  /// A status that has one line, which the proved code writes: bad words, read fault, write fault
  /// or out of memory. Any other has no text.
  static Outcome OfStatus(std::uint8_t status) noexcept {
    return Of(status, [status](DetText& text) { det_text_status(status, &text); });
  }

  /// A status with a line that a call of det_verdict.h writes.
  template <typename Write>
  static Outcome Of(std::uint8_t status, Write const& write) noexcept {
    Outcome outcome;
    outcome.status_ = status;
    DetText text;
    write(text);
    return outcome.Add(text.bytes, text.len);
  }

  /// A file that can't be opened or read. `error` is the system's.
  static Outcome ReadFault(char const* name, int error) noexcept {
    Outcome outcome = OfStatus(DET_STATUS_READ_FAULT);
    return outcome.AddHintOn(name).Add(std::strerror(error)).Add("\n");
  }

  /// A record that isn't what its inputs give. A hint has its name.
  static Outcome Differs(char const* name) noexcept {
    Outcome outcome = OfStatus(DET_STATUS_DIFFERS);
    return outcome.Add("  copy 0: ").AddExcerpt(name).Add("\n");
  }

  /// A standard output that can't be written. There is no hint if the other end of a pipe is
  /// closed.
  static Outcome WriteFault(int error) noexcept {
    Outcome outcome = OfStatus(DET_STATUS_WRITE_FAULT);
    if (error == 0 || error == EPIPE) return outcome;
    return outcome.Add("  ").Add(std::strerror(error)).Add("\n");
  }

  /// The end of a run by an error of the engine in a cycle. Its line is this repository's own:
  /// `det` has no such status.
  static Outcome JobFault(std::uint32_t cycle, DeterministicError error) noexcept {
    if (error.code == DeterministicErrc::kNoMemory) return OfStatus(DET_STATUS_OUT_OF_MEMORY);
    if (error.code == DeterministicErrc::kWriteFailed) return OfStatus(DET_STATUS_WRITE_FAULT);
    Outcome outcome;
    outcome.status_ = kJobFault;
    outcome.Add("job fault: cycle ").AddNumber(cycle).Add(": ").Add(error.Message());
    if (error.element != 0) outcome.Add(", element ").AddNumber(error.element);
    return outcome.Add("\n");
  }

  /// The exit status of a fault of the job.
  static constexpr std::uint8_t kJobFault = 70;

  std::uint8_t Status() const noexcept { return status_; }
  bool IsDone() const noexcept { return status_ == DET_STATUS_DONE; }
  Span<std::uint8_t const> Text() const noexcept { return {text_, size_}; }

  Outcome& Add(char const* text) noexcept { return Add(text, std::strlen(text)); }
  Outcome& Add(void const* bytes, std::size_t count) noexcept {
    std::size_t const taken = std::min(count, sizeof text_ - size_);
    std::memcpy(text_ + size_, bytes, taken);
    size_ += taken;
    return *this;
  }

  Outcome& AddNumber(std::int64_t value) noexcept {
    char digits[20];
    std::size_t at = sizeof digits;
    auto rest = static_cast<std::uint64_t>(value);
    if (value < 0) {
      Add("-");
      rest = 0 - rest;
    }
    do {
      digits[--at] = static_cast<char>('0' + rest % 10);
      rest /= 10;
    } while (rest != 0);
    return Add(digits + at, sizeof digits - at);
  }

  /// Adds the first 64 bytes of a name or an argument, and `..` if it has more. A byte that isn't
  /// printable ASCII becomes `?`, so that no control character reaches a terminal.
  Outcome& AddExcerpt(char const* name) noexcept {
    constexpr std::size_t kMost = 64;
    std::size_t const length = std::strlen(name);
    for (std::size_t i = 0; i < std::min(length, kMost); ++i) {
      char const shown = name[i] >= ' ' && name[i] <= '~' ? name[i] : '?';
      Add(&shown, 1);
    }
    return length > kMost ? Add("..") : *this;
  }

  /// Begins the line of a hint on a file. Its text and a line feed are to follow.
  Outcome& AddHintOn(char const* name) noexcept { return Add("  ").AddExcerpt(name).Add(": "); }

 private:
  std::uint8_t status_ = DET_STATUS_DONE;
  std::uint8_t text_[1024];
  std::size_t size_ = 0;
};

}  // namespace DET_EXEC_ABI
}  // namespace det::exec

#endif
