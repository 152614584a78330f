// The elements of a finished cycle, spelled in blocks by several threads, as they are in a record.
#ifndef DET_EXEC_ELEMENT_BLOCKS_H
#define DET_EXEC_ELEMENT_BLOCKS_H

#include <atomic>
#include <cstddef>
#include <cstdint>
#include <cstring>

#include "det/exec/det_client.h"
#include "det/exec/det_reading.h"
#include "det/exec/result.h"
#include "det/exec/spelling.h"
#include "det/exec/threads.h"
#include "det/exec/version.h"
#include "det/exec/worker_pool.h"

namespace det::exec {
inline namespace DET_EXEC_ABI {
namespace internal {

/// Spells elements where their bytes will be written. `spell(number, room)` appends the bytes of an
/// element to its room, and returns its draws. Each block is at the place that it has if all
/// elements are as long as they may be, until `Join` moves the blocks together. The proved call
/// `det_are_elements` checks each block.
template <typename Spell>
class ElementBlocks final : public SharedWork {
 public:
  /// `bytes` has `BytesOf(format, element_bytes)` for each element.
  ElementBlocks(Spell const& spell, std::uint8_t format, std::uint32_t count,
                std::size_t element_bytes, std::uint8_t* bytes) noexcept
      : spell_(spell),
        format_(format),
        count_(count),
        element_bytes_(element_bytes),
        stride_(BytesOf(format, element_bytes)),
        bytes_(bytes) {}

  /// An element's length has two bytes. In format 2 its draws have four.
  static constexpr std::size_t BytesOf(std::uint8_t format, std::size_t element_bytes) noexcept {
    return kLength + element_bytes + (format == 1 ? 0 : kDraws);
  }

  void RunBlocks() noexcept override {
    std::uint32_t begin = 0, end = 0;
    while (good_.load(std::memory_order_relaxed)) {
      std::uint32_t const block = claimed_.fetch_add(1);
      if (!det_block(count_, block, &begin, &end)) return;
      if (!SpellBlock(block, begin, end)) good_.store(false);
    }
  }

  /// False if an element was too long, an exception left `spell`, or a block isn't one of elements.
  bool AreGood() const noexcept { return good_.load(); }

  /// Moves the blocks together, and returns their length.
  std::size_t Join() noexcept {
    std::size_t length = 0;
    std::uint32_t begin = 0, end = 0;
    for (std::uint32_t block = 0; det_block(count_, block, &begin, &end); ++block) {
      if (length != begin * stride_) {
        std::memmove(bytes_ + length, bytes_ + begin * stride_, sizes_[block]);
      }
      length += sizes_[block];
    }
    return length;
  }

 private:
  static constexpr std::size_t kLength = 2, kDraws = 4;

  bool SpellBlock(std::uint32_t block, std::uint32_t begin, std::uint32_t end) noexcept {
    std::uint8_t* const first = bytes_ + begin * stride_;
    std::uint8_t* at = first;
    DET_EXEC_TRY {
      for (std::uint32_t number = begin; number != end; ++number) {
        ElementRoom room(at + kLength, element_bytes_);
        std::uint32_t const draws = spell_(number, room);
        if (room.Overflowed()) return false;
        Store<kLength>(at, room.Size());
        at += kLength + room.Size();
        if (format_ == 1) continue;
        Store<kDraws>(at, draws);
        at += kDraws;
      }
    }
    DET_EXEC_CATCH_ALL { return false; }
    sizes_[block] = static_cast<std::size_t>(at - first);
    return det_are_elements(format_, end - begin, first, sizes_[block]);
  }

  Spell const& spell_;
  std::uint8_t const format_;
  std::uint32_t const count_;
  std::size_t const element_bytes_, stride_;
  std::uint8_t* const bytes_;
  std::size_t sizes_[kMostBlocks];
  alignas(64) std::atomic<std::uint32_t> claimed_{0};
  std::atomic<bool> good_{true};
};

}  // namespace internal
}  // namespace DET_EXEC_ABI
}  // namespace det::exec

#endif
