// What a command makes from a manifest or from a record: the header of a run, and its job.
#ifndef DET_EXEC_SETUP_H
#define DET_EXEC_SETUP_H

#include <cstddef>
#include <cstdint>
#include <cstring>
#include <memory>
#include <new>
#include <optional>
#include <type_traits>

#include "det/exec/det_manifest.h"
#include "det/exec/engine.h"
#include "det/exec/manifest_reader.h"
#include "det/exec/outcome.h"
#include "det/exec/record_reader.h"
#include "det/exec/version.h"

namespace det::exec {
inline namespace DET_EXEC_ABI {

/// A header and the job of its parameters. The members with values may only be called after a
/// reading that is done.
template <typename J>
class Setup {
 public:
  /// Reads a manifest. The seed becomes that of the header.
  Outcome FromManifest(char const* name, bool is_strict, std::uint64_t seed) noexcept {
    manifest_.reset(new (std::nothrow) DetManifest{});
    header_.reset(new (std::nothrow) DetHeader{});
    if (!manifest_ || !header_) return Outcome::OfStatus(DET_STATUS_OUT_OF_MEMORY);
    Outcome const outcome = ReadManifest(name, is_strict, *manifest_, J::kName);
    if (!outcome.IsDone()) return outcome;
    auto const* const job = reinterpret_cast<std::uint8_t const*>(J::kName);
    if (!det_manifest_is_job(manifest_.get(), job, std::strlen(J::kName))) return UnknownJob();
    *header_ = HeaderOf(DetProfile{seed, manifest_->cycle_time, J::kNumber},
                        {manifest_->params, manifest_->param_count},
                        {manifest_->events, manifest_->event_count});
    workers_ = manifest_->workers;
    return MakeJob([](Parameters::BadParameter const& bad) {
      DetManifestFault fault{};
      fault.reason = DET_MANIFEST_BAD_PARAMETER;
      fault.number = static_cast<std::uint16_t>(bad.number);
      return BadManifest(fault, J::kName).Add("  ");
    });
  }

  /// Opens a record and reads its header. The reader is at its first frame then. The name has to
  /// live as long as the reader.
  Outcome FromRecord(char const* name, RecordReader& record) noexcept {
    header_.reset(new (std::nothrow) DetHeader{});
    if (!header_) return Outcome::OfStatus(DET_STATUS_OUT_OF_MEMORY);
    Outcome outcome = record.Open(name);
    if (outcome.IsDone()) outcome = record.Header(*header_);
    if (!outcome.IsDone()) return outcome;
    if (header_->profile.job != J::kNumber) {
      outcome = BadProfile(name);
      outcome.Add("no job has the number ").AddNumber(header_->profile.job);
      return outcome.Add("\n");
    }
    return MakeJob([name](Parameters::BadParameter const&) { return BadProfile(name); });
  }

  DetManifest const& Manifest() const noexcept { return *manifest_; }
  DetHeader const& Header() const noexcept { return *header_; }
  J const& Job() const noexcept { return *job_; }
  /// The manifest's number of workers; 1 for a record.
  std::uint32_t Workers() const noexcept { return workers_; }

 private:
  static Outcome UnknownJob() noexcept {
    DetManifestFault fault{};
    fault.reason = DET_MANIFEST_UNKNOWN_JOB;
    return BadManifest(fault, J::kName);
  }

  /// The line on a record whose profile isn't taken, and the beginning of a hint.
  static Outcome BadProfile(char const* name) noexcept {
    Outcome outcome =
        Outcome::Of(DET_STATUS_BAD_RECORD, [](DetText& text) { det_text_bad_profile(&text); });
    return outcome.AddHintOn(name);
  }

  static J JobOf(Parameters& params) {
    if constexpr (std::is_constructible_v<J, Parameters&>) {
      return J(params);
    } else {
      (void)params;
      return J();
    }
  }

  /// Makes the job of the header's parameters. `refuse` gives the line for a bad one, and the
  /// beginning of a hint.
  template <typename Refuse>
  Outcome MakeJob(Refuse const& refuse) noexcept {
    Parameters params({header_->params, header_->param_count}, header_->event_count);
    DET_EXEC_TRY { job_.emplace(JobOf(params)); }
    DET_EXEC_CATCH_ALL {
      return Outcome::JobFault(0, DeterministicError{DeterministicErrc::kApplicationThrew});
    }
    auto const bad = params.Bad();
    return bad ? WithRange(refuse(*bad), *bad) : Outcome();
  }

  /// Ends a hint by what the job takes in place of a bad parameter.
  static Outcome WithRange(Outcome outcome, Parameters::BadParameter const& bad) noexcept {
    auto const number = static_cast<std::int64_t>(bad.number);
    if (bad.name == nullptr) {
      return outcome.Add(J::kName).Add(" has ").AddNumber(number).Add(" parameters\n");
    }
    outcome.Add("parameter ").AddNumber(number).Add(" of ").Add(J::kName).Add(": ").Add(bad.name);
    outcome.Add(", ").AddNumber(bad.least).Add(" to ").AddNumber(bad.most);
    return outcome.Add("\n");
  }

  std::unique_ptr<DetManifest> manifest_;
  std::unique_ptr<DetHeader> header_;
  std::optional<J> job_;
  std::uint32_t workers_ = 1;
};

}  // namespace DET_EXEC_ABI
}  // namespace det::exec

#endif
