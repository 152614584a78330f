// Arrays that take memory only when they grow, and spans of memory that someone else owns.
#ifndef DET_EXEC_MEMORY_H
#define DET_EXEC_MEMORY_H

#include <cstddef>
#include <memory>
#include <new>
#include <utility>

#include "det/exec/version.h"

namespace det::exec {
inline namespace DET_EXEC_ABI {
namespace internal {

/// An array whose length only `Grow` changes.
template <typename T>
class Array {
 public:
  /// Makes room for at least `count` items, and keeps the items that were there. Takes memory if
  /// the array is shorter. False if there is none; then the array is as it was.
  bool Grow(std::size_t count) noexcept {
    if (count <= count_) return true;
    std::unique_ptr<T[]> items(new (std::nothrow) T[count]());
    if (!items) return false;
    for (std::size_t i = 0; i < count_; ++i) items[i] = std::move(items_[i]);
    items_ = std::move(items);
    count_ = count;
    return true;
  }

  T* data() noexcept { return items_.get(); }
  T const* data() const noexcept { return items_.get(); }
  std::size_t size() const noexcept { return count_; }
  T& operator[](std::size_t i) noexcept { return items_[i]; }
  T const& operator[](std::size_t i) const noexcept { return items_[i]; }

 private:
  std::unique_ptr<T[]> items_;
  std::size_t count_ = 0;
};

}  // namespace internal

/// Items in a row. Their owner is someone else, who keeps them as long as the span is used.
template <typename T>
class Span {
 public:
  constexpr Span() noexcept = default;
  constexpr Span(T* first, std::size_t count) noexcept : first_(first), count_(count) {}
  constexpr T* begin() const noexcept { return first_; }
  constexpr T* end() const noexcept { return first_ + count_; }
  constexpr T* data() const noexcept { return first_; }
  constexpr std::size_t size() const noexcept { return count_; }
  constexpr bool empty() const noexcept { return count_ == 0; }
  constexpr T& operator[](std::size_t i) const noexcept { return first_[i]; }

 private:
  T* first_ = nullptr;
  std::size_t count_ = 0;
};

}  // namespace DET_EXEC_ABI
}  // namespace det::exec

#endif
