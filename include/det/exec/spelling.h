// How numbers are written in elements and outputs of a record: big-endian, signed ones in two's
// complement.
#ifndef DET_EXEC_SPELLING_H
#define DET_EXEC_SPELLING_H

#include <cstddef>
#include <cstdint>
#include <cstring>
#include <vector>

#include "det/exec/det_types.h"
#include "det/exec/version.h"

namespace det::exec {
inline namespace DET_EXEC_ABI {

/// Appends bytes to an element, which begins as `DetElement{}`. If it would get more than 64 bytes
/// its length becomes 65, and the recorder returns kOutOfRange.
inline void Append(DetElement& element, std::uint8_t const* bytes, std::size_t count) noexcept {
  if (element.len > sizeof element.bytes || count > sizeof element.bytes - element.len) {
    element.len = sizeof element.bytes + 1;
    return;
  }
  std::memcpy(element.bytes + element.len, bytes, count);
  element.len = static_cast<std::uint8_t>(element.len + count);
}

/// Appends bytes to an output.
inline void Append(std::vector<std::uint8_t>& output, std::uint8_t const* bytes,
                   std::size_t count) {
  output.insert(output.end(), bytes, bytes + count);
}

/// The room for the bytes of one element in a record. More than fit are dropped.
class ElementRoom {
 public:
  ElementRoom(std::uint8_t* bytes, std::size_t most) noexcept : bytes_(bytes), most_(most) {}

  std::size_t Size() const noexcept { return size_; }
  /// Whether more bytes were appended than fit.
  bool Overflowed() const noexcept { return size_ > most_; }

  friend void Append(ElementRoom& room, std::uint8_t const* bytes, std::size_t count) noexcept {
    if (room.Overflowed() || count > room.most_ - room.size_) {
      room.size_ = room.most_ + 1;
      return;
    }
    std::memcpy(room.bytes_ + room.size_, bytes, count);
    room.size_ += count;
  }

 private:
  std::uint8_t* bytes_;
  std::size_t most_, size_ = 0;
};

namespace internal {

/// Writes the low `width` bytes of a number. Compilers make two instructions of the eight terms,
/// and not of a loop.
template <std::size_t width>
void Store(std::uint8_t* at, std::uint64_t value) noexcept {
  auto const byte = [value](unsigned from) { return static_cast<std::uint8_t>(value >> from); };
  std::uint8_t const bytes[8] = {byte(56), byte(48), byte(40), byte(32),
                                 byte(24), byte(16), byte(8),  byte(0)};
  std::memcpy(at, bytes + (8 - width), width);
}

}  // namespace internal

/// Writes numbers at the end of an element or an output.
template <typename Bytes>
class Spelling {
 public:
  explicit Spelling(Bytes& bytes) noexcept : bytes_(bytes) {}

  Spelling& U8(std::uint8_t value) { return Put<1>(value); }
  Spelling& U16(std::uint16_t value) { return Put<2>(value); }
  Spelling& U32(std::uint32_t value) { return Put<4>(value); }
  Spelling& U64(std::uint64_t value) { return Put<8>(value); }
  Spelling& I64(std::int64_t value) { return Put<8>(static_cast<std::uint64_t>(value)); }

 private:
  template <std::size_t width>
  Spelling& Put(std::uint64_t value) {
    std::uint8_t bytes[width];
    internal::Store<width>(bytes, value);
    Append(bytes_, bytes, width);
    return *this;
  }

  Bytes& bytes_;
};

/// Reads numbers that `Spelling` wrote. After the last byte each number is 0 and `Good` is false.
class Reading {
 public:
  Reading(std::uint8_t const* bytes, std::size_t count) noexcept : bytes_(bytes), count_(count) {}
  explicit Reading(DetElement const& element) noexcept : Reading(element.bytes, element.len) {}

  std::uint8_t U8() noexcept { return static_cast<std::uint8_t>(Take(1)); }
  std::uint16_t U16() noexcept { return static_cast<std::uint16_t>(Take(2)); }
  std::uint32_t U32() noexcept { return static_cast<std::uint32_t>(Take(4)); }
  std::uint64_t U64() noexcept { return Take(8); }
  std::int64_t I64() noexcept { return static_cast<std::int64_t>(Take(8)); }
  bool Good() const noexcept { return good_; }

 private:
  std::uint64_t Take(std::size_t width) noexcept {
    good_ = good_ && width <= count_;
    if (!good_) return 0;
    std::uint64_t value = 0;
    for (std::size_t i = 0; i < width; ++i) value = value << 8 | bytes_[i];
    bytes_ += width;
    count_ -= width;
    return value;
  }

  std::uint8_t const* bytes_;
  std::size_t count_;
  bool good_ = true;
};

}  // namespace DET_EXEC_ABI
}  // namespace det::exec

#endif
