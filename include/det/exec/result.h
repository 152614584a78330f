// What the calls of det::exec return: a value, or an error with one cause.
#ifndef DET_EXEC_RESULT_H
#define DET_EXEC_RESULT_H

#include <cstdint>
#include <cstdlib>
#include <exception>
#include <optional>
#include <type_traits>
#include <utility>
#include <variant>

#include "det/exec/version.h"

#if DET_EXEC_ARA_CORE
#include <ara/core/result.h>
#endif

// Without exceptions the application throws none, so the second branch is never taken.
#if defined(__cpp_exceptions)
#define DET_EXEC_TRY try
#define DET_EXEC_CATCH_ALL catch (...)
#else
#define DET_EXEC_TRY if (true)
#define DET_EXEC_CATCH_ALL else
#endif

namespace det::exec {
inline namespace DET_EXEC_ABI {

/// Why a call did nothing or ended early. The numbers stay the same in later versions.
enum class DeterministicErrc : std::int32_t {
  kBadCycleTime = 1,          ///< the cycle time isn't 1 to 2^63 - 1 nanoseconds
  kBadWorkers = 2,            ///< the number of workers isn't 1 to 64
  kThreadNotStarted = 3,      ///< the system starts fewer threads than the call asked for
  kNoMemory = 4,              ///< out of memory; the call can be made again
  kApplicationThrew = 5,      ///< an exception left code of the application
  kTooManyCycles = 6,         ///< 1,000,000 cycles ran
  kNotInCycle = 7,            ///< only a cycle can be refused
  kNoTimeStampAvailable = 8,  ///< the cycle has no such time
  kTimeStampTooLarge = 9,     ///< a time stamp can't hold a time of 2^63 nanoseconds or more
  kTooManyElements = 10,      ///< the container has more than 65,536 elements
  kTooManyPasses = 11,        ///< the cycle has had 8 passes
  kBadWindow = 12,            ///< the capacity isn't 1 to 1,024
  kBadSample = 13,            ///< the sample isn't -10^12 to 10^12
  kMisplaced = 14,            ///< this part of a record isn't allowed now
  kOutOfRange = 15,           ///< a value or a count isn't in its range
  kWriteFailed = 16,          ///< a write of the record failed, now or before
  kOutputTooLong = 17,        ///< an output is longer than its reserved room
  kBadThreadOptions = 18      ///< an attribute has a value that no thread can have
};

/// The text of an error.
constexpr char const* MessageOf(DeterministicErrc code) noexcept {
  switch (code) {
    case DeterministicErrc::kBadCycleTime: return "bad cycle time";
    case DeterministicErrc::kBadWorkers: return "bad number of workers";
    case DeterministicErrc::kThreadNotStarted: return "a thread can't be started";
    case DeterministicErrc::kNoMemory: return "out of memory";
    case DeterministicErrc::kApplicationThrew: return "the application threw an exception";
    case DeterministicErrc::kTooManyCycles: return "too many cycles";
    case DeterministicErrc::kNotInCycle: return "not in a cycle";
    case DeterministicErrc::kNoTimeStampAvailable: return "no time stamp available";
    case DeterministicErrc::kTimeStampTooLarge: return "time too large for a time stamp";
    case DeterministicErrc::kTooManyElements: return "too many elements";
    case DeterministicErrc::kTooManyPasses: return "too many passes in a cycle";
    case DeterministicErrc::kBadWindow: return "bad capacity of a window";
    case DeterministicErrc::kBadSample: return "sample out of range";
    case DeterministicErrc::kMisplaced: return "part of a record out of place";
    case DeterministicErrc::kOutOfRange: return "value of a record out of range";
    case DeterministicErrc::kWriteFailed: return "record not written";
    case DeterministicErrc::kOutputTooLong: return "output longer than reserved";
    case DeterministicErrc::kBadThreadOptions: return "bad thread options";
  }
  return "unknown error";
}

/// An error. If a pass ended early, `element` is the least one whose run threw; else it is 0.
struct DeterministicError {
  DeterministicErrc code;
  std::uint32_t element = 0;

  DeterministicErrc Value() const noexcept { return code; }
  char const* Message() const noexcept { return MessageOf(code); }

  friend constexpr bool operator==(DeterministicError left, DeterministicError right) noexcept {
    return left.code == right.code && left.element == right.element;
  }
  friend constexpr bool operator!=(DeterministicError left, DeterministicError right) noexcept {
    return !(left == right);
  }
  friend constexpr bool operator==(DeterministicError left, DeterministicErrc right) noexcept {
    return left.code == right;
  }
};

/// The exception that `ValueOrThrow` throws.
class DeterministicFault : public std::exception {
 public:
  explicit DeterministicFault(DeterministicError error) noexcept : error_(error) {}
  DeterministicError Error() const noexcept { return error_; }
  char const* what() const noexcept override { return error_.Message(); }

 private:
  DeterministicError error_;
};

template <typename T>
class Result;

namespace internal {

[[noreturn]] inline void ThrowOrAbort(DeterministicError error) {
#if defined(__cpp_exceptions)
  throw DeterministicFault(error);
#else
  (void)error;
  std::abort();
#endif
}

template <typename T>
struct IsResult : std::false_type {};
template <typename T>
struct IsResult<Result<T>> : std::true_type {};

}  // namespace internal

/// A value or an error, with the members of ara::core::Result. `Value`, `*` and `->` may only be
/// called if there is a value, and `Error` only if there is none.
template <typename T>
class [[nodiscard]] Result {
 public:
  using value_type = T;
  using error_type = DeterministicError;

  Result(T value) noexcept : held_(std::in_place_index<0>, std::move(value)) {}
  Result(DeterministicError error) noexcept : held_(std::in_place_index<1>, error) {}
  Result(DeterministicErrc code) noexcept : Result(DeterministicError{code}) {}
  static Result FromValue(T value) noexcept { return Result(std::move(value)); }
  static Result FromError(DeterministicError error) noexcept { return Result(error); }

  bool HasValue() const noexcept { return held_.index() == 0; }
  explicit operator bool() const noexcept { return HasValue(); }
  T const& operator*() const& noexcept { return Value(); }
  T& operator*() & noexcept { return Value(); }
  T&& operator*() && noexcept { return std::move(*this).Value(); }
  T const* operator->() const noexcept { return std::get_if<0>(&held_); }
  T* operator->() noexcept { return std::get_if<0>(&held_); }
  T const& Value() const& noexcept { return *std::get_if<0>(&held_); }
  T& Value() & noexcept { return *std::get_if<0>(&held_); }
  T&& Value() && noexcept { return std::move(*std::get_if<0>(&held_)); }
  DeterministicError Error() const noexcept { return *std::get_if<1>(&held_); }
  std::optional<T> Ok() const& { return HasValue() ? std::optional<T>(Value()) : std::nullopt; }
  std::optional<T> Ok() && noexcept {
    return HasValue() ? std::optional<T>(std::move(*this).Value()) : std::nullopt;
  }
  std::optional<DeterministicError> Err() const noexcept {
    return HasValue() ? std::nullopt : std::optional<DeterministicError>(Error());
  }
  T ValueOr(T other) const& noexcept { return HasValue() ? Value() : std::move(other); }
  T ValueOr(T other) && noexcept {
    return HasValue() ? std::move(*this).Value() : std::move(other);
  }
  DeterministicError ErrorOr(DeterministicError other) const noexcept {
    return HasValue() ? other : Error();
  }
  bool CheckError(DeterministicErrc code) const noexcept {
    return !HasValue() && Error().code == code;
  }
  T const& ValueOrThrow() const& {
    if (!HasValue()) internal::ThrowOrAbort(Error());
    return Value();
  }
  T&& ValueOrThrow() && {
    if (!HasValue()) internal::ThrowOrAbort(Error());
    return std::move(*this).Value();
  }
  template <typename Function>
  T Resolve(Function&& function) const {
    return HasValue() ? Value() : std::forward<Function>(function)(Error());
  }
  template <typename Function>
  auto Bind(Function&& function) const {
    using Answer = std::decay_t<decltype(std::forward<Function>(function)(Value()))>;
    using Bound = std::conditional_t<internal::IsResult<Answer>::value, Answer, Result<Answer>>;
    if (!HasValue()) return Bound(Error());
    return Bound(std::forward<Function>(function)(Value()));
  }

#if DET_EXEC_ARA_CORE
  template <typename E>
  operator ara::core::Result<T, E>() && {
    using Core = ara::core::Result<T, E>;
    if (HasValue()) return Core::FromValue(std::move(*this).Value());
    return Core::FromError(E(Error().code));
  }
#endif

 private:
  std::variant<T, DeterministicError> held_;
};

/// Success without a value, or an error.
template <>
class [[nodiscard]] Result<void> {
 public:
  using value_type = void;
  using error_type = DeterministicError;

  Result() noexcept = default;
  Result(DeterministicError error) noexcept : error_(error) {}
  Result(DeterministicErrc code) noexcept : Result(DeterministicError{code}) {}
  static Result FromValue() noexcept { return Result(); }
  static Result FromError(DeterministicError error) noexcept { return Result(error); }

  bool HasValue() const noexcept { return !error_.has_value(); }
  explicit operator bool() const noexcept { return HasValue(); }
  void operator*() const noexcept {}
  void Value() const noexcept {}
  DeterministicError Error() const noexcept { return *error_; }
  std::optional<DeterministicError> Err() const noexcept { return error_; }
  DeterministicError ErrorOr(DeterministicError other) const noexcept {
    return error_.value_or(other);
  }
  bool CheckError(DeterministicErrc code) const noexcept { return error_ && error_->code == code; }
  void ValueOrThrow() const {
    if (error_) internal::ThrowOrAbort(*error_);
  }

#if DET_EXEC_ARA_CORE
  template <typename E>
  operator ara::core::Result<void, E>() && {
    using Core = ara::core::Result<void, E>;
    if (HasValue()) return Core::FromValue();
    return Core::FromError(E(Error().code));
  }
#endif

 private:
  std::optional<DeterministicError> error_;
};

}  // namespace DET_EXEC_ABI
}  // namespace det::exec

#if DET_EXEC_ARA_CORE
#include "det/exec/error_domain.h"
#endif

#endif
