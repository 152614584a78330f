// Where the bytes of a record go.
#ifndef DET_EXEC_RECORD_SINK_H
#define DET_EXEC_RECORD_SINK_H

#include <unistd.h>

#include <cerrno>
#include <cstddef>
#include <cstdint>
#include <cstring>
#include <ostream>

#include "det/exec/result.h"
#include "det/exec/version.h"

namespace det::exec {
inline namespace DET_EXEC_ABI {

/// Takes bytes. An application can have a sink of its own.
class RecordSink {
 public:
  virtual ~RecordSink() = default;

  /// Writes all of these bytes. False if it can't; then it isn't called again.
  virtual bool Write(std::uint8_t const* bytes, std::size_t count) noexcept = 0;

  /// Writes what is held back. It is called after the last byte.
  virtual bool Finish() noexcept { return true; }
};

/// A stream. It has to be open as binary and to live as long as the sink.
class StreamSink final : public RecordSink {
 public:
  explicit StreamSink(std::ostream& stream) noexcept : stream_(stream) {}

  bool Write(std::uint8_t const* bytes, std::size_t count) noexcept override {
    DET_EXEC_TRY {
      stream_.write(reinterpret_cast<char const*>(bytes), static_cast<std::streamsize>(count));
      return stream_.good();
    }
    DET_EXEC_CATCH_ALL { return false; }
  }

  bool Finish() noexcept override {
    DET_EXEC_TRY { return stream_.flush().good(); }
    DET_EXEC_CATCH_ALL { return false; }
  }

 private:
  std::ostream& stream_;
};

/// A file descriptor that blocks. The sink doesn't close it.
class DescriptorSink final : public RecordSink {
 public:
  explicit DescriptorSink(int descriptor) noexcept : descriptor_(descriptor) {}

  bool Write(std::uint8_t const* bytes, std::size_t count) noexcept override {
    while (count != 0) {
      ssize_t const taken = ::write(descriptor_, bytes, count);
      if (taken < 0 && errno == EINTR) continue;
      if (taken <= 0) {
        error_ = taken < 0 ? errno : EIO;
        return false;
      }
      bytes += taken;
      count -= static_cast<std::size_t>(taken);
    }
    return true;
  }

  /// The error of the system that ended the writing; 0 if none did.
  int Error() const noexcept { return error_; }

 private:
  int descriptor_;
  int error_ = 0;
};

/// A file descriptor that is written in pieces of 64 KiB. The buffer is in the sink itself.
class BufferedSink final : public RecordSink {
 public:
  explicit BufferedSink(int descriptor) noexcept : sink_(descriptor) {}

  bool Write(std::uint8_t const* bytes, std::size_t count) noexcept override {
    if (count > sizeof held_ - size_ && !Finish()) return false;
    if (count > sizeof held_) return sink_.Write(bytes, count);
    std::memcpy(held_ + size_, bytes, count);
    size_ += count;
    return true;
  }

  bool Finish() noexcept override {
    std::size_t const count = size_;
    size_ = 0;
    return count == 0 || sink_.Write(held_, count);
  }

  int Error() const noexcept { return sink_.Error(); }

 private:
  DescriptorSink sink_;
  std::size_t size_ = 0;
  std::uint8_t held_[65536];
};

}  // namespace DET_EXEC_ABI
}  // namespace det::exec

#endif
