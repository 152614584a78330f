// A manifest as a file, and the hints of `det` on one that isn't taken.
#ifndef DET_EXEC_MANIFEST_READER_H
#define DET_EXEC_MANIFEST_READER_H

#include <algorithm>
#include <cstddef>
#include <cstdint>
#include <cstring>

#include "det/exec/det_manifest.h"
#include "det/exec/det_verdict.h"
#include "det/exec/file_input.h"
#include "det/exec/outcome.h"
#include "det/exec/version.h"

namespace det::exec {
inline namespace DET_EXEC_ABI {
namespace internal {

/// The kind and the range of a key's values. `job` is the only job, or null.
constexpr char const* RangeOf(std::uint8_t key, char const* job) noexcept {
  switch (key) {
    case DET_KEY_JOB: return job;
    case DET_KEY_CYCLE_TIME: return "a whole number, 1 to 9223372036854775807";
    case DET_KEY_WORKERS: return "a whole number, 1 to 64";
    case DET_KEY_PARAMS: return "an array of at most 16";
    case DET_KEY_PARAM: return "a whole number";
    case DET_KEY_EVENT: return "an array of at most 256";
    case DET_KEY_EVENT_NAME: return "a text, 1 to 32 of a to z, 0 to 9 and _";
    case DET_KEY_EVENT_CAPACITY: return "a whole number, 1 to 1024";
    case DET_KEY_EVENT_POLICY: return "last or fresh";
    case DET_KEY_PLATFORM: return "a text of 1 to 64 printable characters";
    case DET_KEY_EVENT_ITEM:
    case DET_KEY_INIT_NEEDS:
    case DET_KEY_RUN_NEEDS: return "a table";
    case DET_KEY_INIT_NEEDS + 4:
    case DET_KEY_RUN_NEEDS + 4: return "a whole number, 1 to 1000000";
    default: return "a whole number, 0 to 9223372036854775807";
  }
}

/// What comes before the key in the line of a fault. Null for a fault without one.
constexpr char const* FrontOf(std::uint8_t reason) noexcept {
  switch (reason) {
    case DET_MANIFEST_MISSING: return "bad manifest: missing ";
    case DET_MANIFEST_WRONG_KIND: return "bad manifest: wrong kind ";
    case DET_MANIFEST_OUT_OF_RANGE: return "bad manifest: out of range ";
    default: return nullptr;
  }
}

}  // namespace internal

/// The outcome of a manifest that isn't taken, with its hint. `job` is the only job, or null.
inline Outcome BadManifest(DetManifestFault const& fault, char const* job) noexcept {
  DetText line;
  det_text_bad_manifest(&fault, &line);
  Outcome outcome = Outcome::Of(DET_STATUS_BAD_MANIFEST, [&line](DetText& text) { text = line; });
  if (fault.reason == DET_MANIFEST_TOO_LONG) {
    return outcome.Add("  a manifest has at most 65536 bytes\n");
  }
  if (fault.reason == DET_MANIFEST_UNKNOWN_JOB && job != nullptr) {
    return outcome.Add("  job: ").Add(job).Add("\n");
  }
  char const* const front = internal::FrontOf(fault.reason);
  char const* const range = internal::RangeOf(fault.key, job);
  if (front == nullptr || range == nullptr) return outcome;
  // The line ends with the key and a line feed.
  std::size_t const begin = std::min<std::size_t>(std::strlen(front), line.len);
  std::size_t const end = std::max<std::size_t>(begin + 1, line.len) - 1;
  outcome.Add("  ").Add(line.bytes + begin, end - begin).Add(": ").Add(range);
  return outcome.Add("\n");
}

/// The outcome of a text that isn't TOML, with the line at which it stops being that.
inline Outcome NotToml(DetManifestFault const& fault, FileInput const& file) noexcept {
  Outcome outcome = BadManifest(fault, nullptr);
  std::size_t const line = det_manifest_toml_line(file.Bytes(), file.Count());
  if (line == 0) return outcome;
  return outcome.Add("  line ").AddNumber(static_cast<std::int64_t>(line)).Add("\n");
}

/// Reads a manifest. If it isn't done, `manifest` may be anything. `job` is for a hint.
inline Outcome ReadManifest(char const* name, bool is_strict, DetManifest& manifest,
                            char const* job = nullptr) noexcept {
  constexpr std::size_t kTooMany = 65537;
  FileInput file;
  Outcome outcome = file.Open(name);
  if (outcome.IsDone()) outcome = file.Fill(kTooMany);
  if (!outcome.IsDone()) return outcome;
  DetManifestFault fault;
  switch (det_manifest_read(&manifest, &fault, file.Bytes(), file.Count(), is_strict)) {
    case DET_MANIFEST_READ: return Outcome();
    case DET_MANIFEST_NO_MEMORY: return Outcome::OfStatus(DET_STATUS_OUT_OF_MEMORY);
    default: break;
  }
  return fault.reason == DET_MANIFEST_NOT_TOML ? NotToml(fault, file) : BadManifest(fault, job);
}

}  // namespace DET_EXEC_ABI
}  // namespace det::exec

#endif
