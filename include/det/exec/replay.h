// Replay and check for an application with a loop of its own over DeterministicClient and Recorder:
// its inputs come from a record, and what it records is compared with that record.
#ifndef DET_EXEC_REPLAY_H
#define DET_EXEC_REPLAY_H

#include <cstddef>
#include <cstdint>
#include <cstring>
#include <memory>
#include <new>
#include <optional>

#include "det/exec/det_reading.h"
#include "det/exec/live.h"
#include "det/exec/outcome.h"
#include "det/exec/record_reader.h"
#include "det/exec/record_sink.h"
#include "det/exec/version.h"

namespace det::exec {
inline namespace DET_EXEC_ABI {

/// The cycles of a record as a source. It stops the process after the last one, or at a fault.
class RecordedSource final : public LiveSource {
 public:
  /// Opens a record and reads its header. Takes memory; a later frame takes some if it is longer
  /// than all before. The name has to live as long as the source.
  Outcome Open(char const* name, DetHeader& header) noexcept {
    if (!samples_.Reserve()) return Outcome::OfStatus(DET_STATUS_OUT_OF_MEMORY);
    ended_ = record_.Open(name);
    if (ended_.IsDone()) ended_ = record_.Header(header);
    return ended_;
  }

  Activation Next() override {
    constexpr int kOpening = 3;
    if (opened_ < kOpening) {
      ++opened_;
      return {};
    }
    DetFrame frame{};
    bool is_end = false;
    do {
      if (ended_.IsDone()) ended_ = record_.Next(is_end, frame);
      if (!ended_.IsDone() || is_end) return {true, std::nullopt};
    } while (frame.tag != static_cast<std::uint8_t>(FrameTag::kRun));
    samples_.Take(record_, frame);
    if (!frame.time.known) return {};
    return {false, frame.time.time};
  }

  void Arrived(Arrivals& arrivals) override {
    for (DetSample const& sample : Samples()) (void)arrivals.Add(sample.event, sample.value);
  }

  /// The samples of the present cycle.
  Span<DetSample const> Samples() const noexcept { return samples_.All(); }
  /// Done, or the fault of the record at which the source stopped.
  Outcome const& Ended() const noexcept { return ended_; }

 private:
  RecordReader record_;
  Outcome ended_;
  FrameSamples samples_;
  int opened_ = 0;
};

/// A sink of a Recorder that compares each part with that of a record. At the first difference, or
/// at a fault of the record, it refuses the part, so the recorder returns kWriteFailed. The
/// recorder is one of the record's format.
class CheckingSink final : public RecordSink {
 public:
  /// Opens the record. Takes memory, as RecordedSource does. The name has to live as long as the
  /// sink.
  Outcome Open(char const* name) noexcept {
    header_.reset(new (std::nothrow) DetHeader{});
    if (!header_) return Outcome::OfStatus(DET_STATUS_OUT_OF_MEMORY);
    Outcome const opened = record_.Open(name);
    return opened.IsDone() ? record_.Header(*header_) : opened;
  }

  bool Write(std::uint8_t const* bytes, std::size_t count) noexcept override {
    return part_++ == 0 ? CompareHeader(bytes, count) : CompareFrame(part_ - 2, bytes, count);
  }

  /// Where the record first departs from what was recorded. None if it doesn't so far.
  std::optional<DetPlace> Departs() const noexcept { return place_; }
  /// Done, or the fault of the record, found before any difference.
  Outcome const& Fault() const noexcept { return fault_; }

 private:
  bool CompareHeader(std::uint8_t const* bytes, std::size_t count) noexcept {
    if (count == record_.Length() && std::memcmp(bytes, record_.Bytes(), count) == 0) return true;
    place_ = DetPlace{0, 0, DET_PLACE_HEADER};
    return false;
  }

  bool CompareFrame(std::uint32_t number, std::uint8_t const* bytes, std::size_t count) noexcept {
    DetFrame frame{};
    bool is_end = false;
    fault_ = record_.Next(is_end, frame);
    if (!fault_.IsDone()) return false;
    if (!is_end && count == record_.Length() && std::memcmp(bytes, record_.Bytes(), count) == 0) {
      return true;
    }
    DetPlace place{number, 0, DET_PLACE_KIND};
    if (!is_end && det_frame_difference(header_->format, header_->event_count, number,
                                        record_.Bytes(), record_.Length(), bytes, count,
                                        &place) == DET_FRAMES_EQUAL) {
      return true;
    }
    place_ = place;
    return false;
  }

  RecordReader record_;
  std::unique_ptr<DetHeader> header_;
  std::optional<DetPlace> place_;
  Outcome fault_;
  std::uint32_t part_ = 0;
};

}  // namespace DET_EXEC_ABI
}  // namespace det::exec

#endif
