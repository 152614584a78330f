// A file that is read in order.
#ifndef DET_EXEC_FILE_INPUT_H
#define DET_EXEC_FILE_INPUT_H

#include <fcntl.h>
#include <unistd.h>

#include <algorithm>
#include <cerrno>
#include <cstddef>
#include <cstdint>
#include <cstring>

#include "det/exec/memory.h"
#include "det/exec/outcome.h"
#include "det/exec/version.h"

namespace det::exec {
inline namespace DET_EXEC_ABI {

/// The bytes of a file that were read and not yet dropped. They are in a buffer that is kept from
/// one item of the file to the next. It grows if an item is longer than it, which takes memory.
class FileInput {
 public:
  FileInput() noexcept = default;
  FileInput(FileInput const&) = delete;
  FileInput& operator=(FileInput const&) = delete;
  ~FileInput() {
    if (descriptor_ >= 0) ::close(descriptor_);
  }

  /// Opens a file. The name has to live as long as the input. It is called once.
  Outcome Open(char const* name) noexcept {
    if (!room_.Grow(2 * kPiece)) return Outcome::OfStatus(DET_STATUS_OUT_OF_MEMORY);
    name_ = name;
    descriptor_ = ::open(name, O_RDONLY | O_CLOEXEC);
    return descriptor_ < 0 ? Outcome::ReadFault(name_, errno) : Outcome();
  }

  /// The name it was opened by.
  char const* Name() const noexcept { return name_; }
  /// The bytes, never null after `Open`. They stay where they are until the next `ReadMore`.
  std::uint8_t const* Bytes() const noexcept { return room_.data() + begin_; }
  std::size_t Count() const noexcept { return end_ - begin_; }
  /// Whether the file has no more bytes than these.
  bool AtEnd() const noexcept { return at_end_; }
  /// Drops the first bytes.
  void Drop(std::size_t count) noexcept { begin_ += count; }

  /// Reads on, until there is at least one byte more or the file ends.
  Outcome ReadMore() noexcept {
    if (!MakeRoom()) return Outcome::OfStatus(DET_STATUS_OUT_OF_MEMORY);
    for (;;) {
      std::size_t const most = std::min(kPiece, room_.size() - end_);
      ssize_t const read = ::read(descriptor_, room_.data() + end_, most);
      if (read < 0 && errno == EINTR) continue;
      if (read < 0) return Outcome::ReadFault(name_, errno);
      at_end_ = read == 0;
      end_ += static_cast<std::size_t>(read);
      return Outcome();
    }
  }

  /// Reads on, until there are at least `needed` bytes or the file ends.
  Outcome Fill(std::size_t needed) noexcept {
    Outcome outcome;
    while (outcome.IsDone() && Count() < needed && !at_end_) outcome = ReadMore();
    return outcome;
  }

 private:
  static constexpr std::size_t kPiece = 65536;

  /// Makes room after the bytes, if it can for a piece. The buffer grows only if they fill it, so
  /// that an item takes no memory if one of its length fitted before.
  bool MakeRoom() noexcept {
    if (room_.size() - end_ >= kPiece) return true;
    if (begin_ != 0) std::memmove(room_.data(), Bytes(), Count());
    end_ -= begin_;
    begin_ = 0;
    return end_ != room_.size() || room_.Grow(2 * room_.size());
  }

  internal::Array<std::uint8_t> room_;
  std::size_t begin_ = 0, end_ = 0;
  char const* name_ = "";
  int descriptor_ = -1;
  bool at_end_ = false;
};

}  // namespace DET_EXEC_ABI
}  // namespace det::exec

#endif
