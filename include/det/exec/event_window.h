// The samples of one event that a cycle sees.
#ifndef DET_EXEC_EVENT_WINDOW_H
#define DET_EXEC_EVENT_WINDOW_H

#include <cstddef>
#include <cstdint>
#include <optional>
#include <utility>

#include "det/exec/det_client.h"
#include "det/exec/memory.h"
#include "det/exec/result.h"
#include "det/exec/version.h"

namespace det::exec {
inline namespace DET_EXEC_ABI {

/// Which samples a window shows. Of these it shows the newest, at most as many as its capacity.
enum class WindowPolicy : std::uint8_t {
  kLast = 0,  ///< those of all earlier cycles
  kFresh = 1  ///< those of the cycle just before
};

/// The window of one event. A cycle sees the samples of earlier cycles: a sample is shown after
/// `Turn` has ended the cycle in which it arrived, whether the cycle finished or was refused. After
/// a move the old window may only be destroyed or assigned to.
class EventWindow {
 public:
  /// A window that shows nothing and takes no sample.
  EventWindow() noexcept = default;

  /// A window that shows nothing yet. Takes memory. The capacity is 1 to 1,024, else the error is
  /// kBadWindow.
  static Result<EventWindow> Create(std::uint16_t capacity,
                                    WindowPolicy policy = WindowPolicy::kLast) noexcept {
    EventWindow made;
    if (!det_window_new(&made.window_, capacity, static_cast<std::uint8_t>(policy))) {
      return DeterministicErrc::kBadWindow;
    }
    if (!made.places_.Grow(std::size_t{2} * capacity)) return DeterministicErrc::kNoMemory;
    return Result<EventWindow>(std::move(made));
  }

  EventWindow(EventWindow&&) noexcept = default;
  EventWindow& operator=(EventWindow&&) noexcept = default;

  /// A sample arrives in this cycle. It is -10^12 to 10^12, else the error is kBadSample.
  Result<void> Arrive(std::int64_t value) noexcept {
    if (det_window_arrive(&window_, places_.data(), places_.size(), value)) return {};
    return DeterministicErrc::kBadSample;
  }

  /// The cycle ends.
  void Turn() noexcept { (void)det_window_turn(&window_, places_.data(), places_.size()); }

  /// The samples that the window shows, oldest first.
  std::int64_t const* begin() const noexcept { return places_.data(); }
  std::int64_t const* end() const noexcept { return places_.data() + window_.seen; }
  std::size_t size() const noexcept { return window_.seen; }
  bool empty() const noexcept { return window_.seen == 0; }

  /// The newest sample that the window shows.
  std::optional<std::int64_t> Newest() const noexcept {
    if (empty()) return std::nullopt;
    return places_[window_.seen - std::size_t{1}];
  }

 private:
  DetWindow window_{};
  internal::Array<std::int64_t> places_;
};

}  // namespace DET_EXEC_ABI
}  // namespace det::exec

#endif
