// The errors of det::exec as an error domain of ara::core. result.h includes it if
// DET_EXEC_ARA_CORE is 1.
#ifndef DET_EXEC_ERROR_DOMAIN_H
#define DET_EXEC_ERROR_DOMAIN_H

#include <ara/core/error_code.h>
#include <ara/core/error_domain.h>
#include <ara/core/exception.h>

#include "det/exec/result.h"
#include "det/exec/version.h"

namespace det::exec {
inline namespace DET_EXEC_ABI {

/// The exception as which `ara::core::ErrorCode::ThrowAsException` throws an error of the domain.
class DeterministicException : public ara::core::Exception {
 public:
  using ara::core::Exception::Exception;
};

/// The domain of DeterministicErrc. Its number is this repository's own choice, with bit 63 clear
/// as the numbers of applications have it.
class DeterministicErrorDomain final : public ara::core::ErrorDomain {
 public:
  using Errc = DeterministicErrc;
  using Exception = DeterministicException;

  constexpr DeterministicErrorDomain() noexcept : ErrorDomain(0x2e1d'4c5a'90b7'6f31) {}
  char const* Name() const noexcept override { return "Deterministic"; }
  char const* Message(CodeType code) const noexcept override {
    return MessageOf(static_cast<DeterministicErrc>(code));
  }
  void ThrowAsException(ara::core::ErrorCode const& code) const noexcept(false) override {
    throw DeterministicException(code);
  }
};

inline constexpr DeterministicErrorDomain deterministic_error_domain;

constexpr ara::core::ErrorDomain const& GetDeterministicErrorDomain() noexcept {
  return deterministic_error_domain;
}

constexpr ara::core::ErrorCode MakeErrorCode(
    DeterministicErrc code, ara::core::ErrorDomain::SupportDataType data) noexcept {
  return ara::core::ErrorCode(static_cast<ara::core::ErrorDomain::CodeType>(code),
                              GetDeterministicErrorDomain(), data);
}

}  // namespace DET_EXEC_ABI
}  // namespace det::exec

#endif
