// A record as a file, read frame by frame.
#ifndef DET_EXEC_RECORD_READER_H
#define DET_EXEC_RECORD_READER_H

#include <cstddef>
#include <cstdint>

#include "det/exec/det_reading.h"
#include "det/exec/det_verdict.h"
#include "det/exec/file_input.h"
#include "det/exec/memory.h"
#include "det/exec/outcome.h"
#include "det/exec/version.h"

namespace det::exec {
inline namespace DET_EXEC_ABI {

/// The tags of frames.
enum class FrameTag : std::uint8_t {
  kRegister = 1,
  kDiscover = 2,
  kInit = 3,
  kRun = 4,
  kTerminate = 5
};

/// Reads a record: its header, then its frames. A frame is in memory as a whole, at most 5,677,079
/// bytes. Memory is taken by `Open`, and by a frame that is longer than all before.
class RecordReader {
 public:
  RecordReader() noexcept { det_reading_new(&reading_); }

  /// Opens a record. The name has to live as long as the reader.
  Outcome Open(char const* name) noexcept { return file_.Open(name); }

  /// Reads the header. It is called once, before the first frame.
  Outcome Header(DetHeader& header) noexcept {
    DetRecordFault fault{};
    for (;;) {
      std::size_t length = 0;
      std::uint8_t const read = det_reading_header(&reading_, file_.Bytes(), file_.Count(),
                                                   &header, &length, &fault);
      if (read == DET_READING_WHOLE) {
        length_ = length;
        return Outcome();
      }
      if (read != DET_READING_MORE) return Bad(fault);
      if (file_.AtEnd()) return Truncated();
      Outcome const more = file_.ReadMore();
      if (!more.IsDone()) return more;
    }
  }

  /// Reads the next frame, or finds the end of a whole record. The frame's offsets count from
  /// `Bytes`, and both stay until the next call.
  Outcome Next(bool& is_end, DetFrame& frame) noexcept {
    file_.Drop(length_);
    length_ = 0;
    is_end = false;
    DetRecordFault fault{};
    for (;;) {
      std::uint8_t const read =
          det_reading_frame(&reading_, file_.Bytes(), file_.Count(), &frame, &fault);
      if (read == DET_READING_WHOLE) {
        length_ = frame.length;
        ++frames_;
        return Outcome();
      }
      if (read != DET_READING_MORE) return Bad(fault);
      if (file_.AtEnd()) {
        is_end = det_reading_end(&reading_, file_.Count(), &fault);
        return is_end ? Outcome() : Bad(fault);
      }
      Outcome const more = file_.ReadMore();
      if (!more.IsDone()) return more;
    }
  }

  /// Calls `take(number, element)` for each element of the frame that was read last, in order.
  template <typename Take>
  void EachElement(DetFrame const& frame, Take&& take) const {
    std::size_t at = frame.elements;
    for (std::uint32_t number = 0; number < frame.element_count; ++number) {
      DetElement element;
      if (!det_frame_element(&frame, Bytes(), Length(), &at, &element)) return;
      take(number, static_cast<DetElement const&>(element));
    }
  }

  /// The output of the frame that was read last.
  Span<std::uint8_t const> Output(DetFrame const& frame) const noexcept {
    return {Bytes() + frame.output, frame.output_count};
  }

  /// The bytes of the header or the frame that was read last.
  std::uint8_t const* Bytes() const noexcept { return file_.Bytes(); }
  std::size_t Length() const noexcept { return length_; }

 private:
  /// Bad record, with the hint of `det` on the place of the fault.
  Outcome Bad(DetRecordFault const& fault) const noexcept {
    Outcome outcome =
        Outcome::Of(DET_STATUS_BAD_RECORD,
                    [&fault](DetText& text) { det_text_bad_record(0, &fault, &text); });
    bool const is_at_begin = fault.offset <= reading_.offset;
    std::uint8_t const stage = reading_.record.stage;
    outcome.AddHintOn(file_.Name());
    if (stage == kBeforeHeader) return outcome.Add("in the header\n");
    if (stage > kInCycles) {
      return outcome.Add("behind frame ").AddNumber(frames_ - 1).Add(", Terminate\n");
    }
    if (stage < kBeforeInit || is_at_begin) {
      constexpr char const* kAllowed[] = {"Register", "Discover", "Init", "a run or Terminate"};
      outcome.Add("where frame ").AddNumber(frames_).Add(" begins: ");
      return outcome.Add(kAllowed[stage - 1]).Add("\n");
    }
    outcome.Add("in frame ").AddNumber(frames_);
    if (stage == kBeforeInit) return outcome.Add(", Init\n");
    return outcome.Add(", the run of cycle ").AddNumber(frames_ - 2).Add("\n");
  }

  Outcome Truncated() const noexcept {
    DetRecordFault fault{};
    (void)det_reading_end(&reading_, file_.Count(), &fault);
    return Bad(fault);
  }

  /// Stages of a DetRecord: before the header, before Init, and from the first cycle to Terminate.
  static constexpr std::uint8_t kBeforeHeader = 0, kBeforeInit = 3, kInCycles = 4;

  FileInput file_;
  DetReading reading_;
  std::size_t length_ = 0;
  std::int64_t frames_ = 0;
};

/// The samples of a frame, in an array that is kept from one frame to the next.
class FrameSamples {
 public:
  /// Takes the memory for every frame, since none has more than 4,096 samples.
  bool Reserve() noexcept { return room_.Grow(kMost); }

  /// Takes the samples of the frame that a reader read last.
  void Take(RecordReader const& record, DetFrame const& frame) noexcept {
    count_ = 0;
    while (count_ < room_.size() &&
           det_frame_sample(&frame, record.Bytes(), record.Length(),
                            static_cast<std::uint32_t>(count_), &room_[count_])) {
      ++count_;
    }
  }

  Span<DetSample const> All() const noexcept { return {room_.data(), count_}; }
  Span<DetSample> Room() noexcept { return {room_.data(), room_.size()}; }

 private:
  static constexpr std::size_t kMost = 4096;

  internal::Array<DetSample> room_;
  std::size_t count_ = 0;
};

}  // namespace DET_EXEC_ABI
}  // namespace det::exec

#endif
