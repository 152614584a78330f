// The commands of `det` for one job: each is a call over files, and `Live` runs over a source.
#ifndef DET_EXEC_PROGRAM_H
#define DET_EXEC_PROGRAM_H

#include <unistd.h>

#include <cstddef>
#include <cstdint>
#include <cstring>
#include <optional>

#include "det/exec/arguments.h"
#include "det/exec/async_sink.h"
#include "det/exec/det_verdict.h"
#include "det/exec/engine.h"
#include "det/exec/live.h"
#include "det/exec/outcome.h"
#include "det/exec/record_reader.h"
#include "det/exec/record_sink.h"
#include "det/exec/setup.h"
#include "det/exec/stimulus_reader.h"
#include "det/exec/version.h"

namespace det::exec {
inline namespace DET_EXEC_ABI {

/// What a program has besides its job.
struct ProgramOptions {
  /// What --version prints after the job's name.
  char const* version = "0";
  ThreadOptions threads;
  /// The bytes of a live run's record that may wait for a thread that writes them. With 0 each
  /// cycle writes its own part.
  std::size_t waiting_bytes = 0;
  /// Descriptors for the output and for lines on errors.
  int out = STDOUT_FILENO;
  int err = STDERR_FILENO;
};

/// The commands of one job. Each returns how it ended; statuses, bytes and lines are those of `det`
/// for the same files.
template <typename J>
class Program {
 public:
  explicit Program(ProgramOptions const& options) noexcept : options_(options) {}

  /// Writes the record of a manifest's job over a stimulus.
  Outcome Record(Arguments const& arguments) const noexcept {
    Setup<J> setup;
    Outcome outcome = FromManifest(arguments, setup);
    if (!outcome.IsDone()) return outcome;
    StimulusReader stimulus(setup.Header().event_count);
    outcome = stimulus.Open(arguments.names[1]);
    if (!outcome.IsDone()) return outcome;
    BufferedSink sink(options_.out);
    Engine<J> engine(setup.Job(), sink);
    outcome = OutcomeOf(engine, engine.Open(setup.Header(), OptionsOf(arguments, setup)));
    while (outcome.IsDone()) {
      Block block;
      outcome = stimulus.Next(block);
      if (!outcome.IsDone()) break;
      if (block.terminate) return Flush(sink, OutcomeOf(engine, engine.Close()));
      outcome = RunCycle(engine, block.time, block.samples);
    }
    return Flush(sink, outcome);
  }

  /// Writes a record again, from its inputs.
  Outcome Replay(Arguments const& arguments) const noexcept {
    RecordReader record;
    Setup<J> setup;
    FrameSamples samples;
    Outcome outcome = setup.FromRecord(arguments.names[0], record);
    if (!outcome.IsDone()) return outcome;
    if (!samples.Reserve()) return Outcome::OfStatus(DET_STATUS_OUT_OF_MEMORY);
    BufferedSink sink(options_.out);
    Engine<J> engine(setup.Job(), sink);
    outcome = OutcomeOf(engine, engine.Open(setup.Header(), OptionsOf(arguments, setup)));
    while (outcome.IsDone()) {
      DetFrame frame{};
      bool is_end = false;
      outcome = record.Next(is_end, frame);
      if (!outcome.IsDone()) break;
      if (is_end) return Flush(sink, OutcomeOf(engine, engine.Close()));
      if (!IsRun(frame)) continue;
      samples.Take(record, frame);
      outcome = RunCycle(engine, frame.time, samples.All());
    }
    return Flush(sink, outcome);
  }

  /// Compares a record with what its inputs give, and prints the verdict and the reports.
  Outcome Check(Arguments const& arguments) const noexcept {
    RecordReader record;
    Setup<J> setup;
    FrameSamples samples;
    Outcome outcome = setup.FromRecord(arguments.names[0], record);
    if (!outcome.IsDone()) return outcome;
    if (!samples.Reserve()) return Outcome::OfStatus(DET_STATUS_OUT_OF_MEMORY);
    LastPart part;
    Engine<J> engine(setup.Job(), part);
    outcome = OutcomeOf(engine, engine.Open(setup.Header(), OptionsOf(arguments, setup)));
    DetReports reports;
    det_reports_new(&reports);
    for (std::uint32_t number = 0; outcome.IsDone(); ++number) {
      DetFrame frame{};
      bool is_end = false;
      outcome = record.Next(is_end, frame);
      if (!outcome.IsDone()) break;
      if (is_end) {
        std::uint32_t const cycles = engine.Cycles();
        return Report(Outcome(), reports,
                      [cycles](DetText& text) { det_text_genuine(cycles, &text); });
      }
      det_reports_see(&reports, &frame);
      if (IsRun(frame)) {
        samples.Take(record, frame);
        outcome = RunCycle(engine, frame.time, samples.All());
        if (!outcome.IsDone()) break;
      }
      if (auto const place = part.DifferenceFrom(record, frame, setup.Header(), number)) {
        return Report(Outcome::Differs(arguments.names[0]), reports,
                      [&place](DetText& text) { det_text_departs(&*place, &text); });
      }
    }
    return outcome;
  }

  /// Prints the resource needs of a manifest.
  Outcome Needs(Arguments const& arguments) const noexcept {
    Setup<J> setup;
    Outcome const outcome = FromManifest(arguments, setup);
    if (!outcome.IsDone()) return outcome;
    DetText text;
    det_text_needs(&setup.Manifest(), &text);
    return Print(text.bytes, text.len);
  }

  /// Writes the record of a manifest's job over a source, which is made of the cycle time.
  template <typename Source>
  Outcome Live(Arguments const& arguments) const noexcept {
    Setup<J> setup;
    Outcome const outcome = FromManifest(arguments, setup);
    if (!outcome.IsDone()) return outcome;
    DescriptorSink sink(options_.out);
    if (options_.waiting_bytes == 0) return RunOver<Source>(arguments, setup, sink, sink);
    AsyncSink waiting(sink);
    Result<void> const started = waiting.Start(options_.waiting_bytes);
    if (!started) return Outcome::JobFault(0, started.Error());
    return RunOver<Source>(arguments, setup, waiting, sink);
  }

  /// Writes to standard output.
  Outcome Print(void const* text, std::size_t count) const noexcept {
    DescriptorSink sink(options_.out);
    return sink.Write(static_cast<std::uint8_t const*>(text), count)
               ? Outcome()
               : Outcome::WriteFault(sink.Error());
  }

 private:
  /// Keeps the last part of a record. It stays in the engine's buffer until the next one.
  class LastPart final : public RecordSink {
   public:
    bool Write(std::uint8_t const* bytes, std::size_t count) noexcept override {
      bytes_ = bytes;
      count_ = count;
      return true;
    }

    /// Where the frame that was read last differs from the part. Only Init and Run can differ: a
    /// frame of another kind is one byte, which the reader has checked.
    std::optional<DetPlace> DifferenceFrom(RecordReader const& record, DetFrame const& frame,
                                           DetHeader const& header,
                                           std::uint32_t number) const noexcept {
      if (!IsRun(frame) && frame.tag != static_cast<std::uint8_t>(FrameTag::kInit)) return {};
      if (IsFrame(record)) return {};
      DetPlace place{};
      std::uint8_t const compared =
          det_frame_difference(header.format, header.event_count, number, record.Bytes(),
                               record.Length(), bytes_, count_, &place);
      if (compared == DET_FRAMES_EQUAL) return {};
      return place;
    }

   private:
    /// Whether the part has the bytes of the frame that was read last. The reader has checked them.
    bool IsFrame(RecordReader const& record) const noexcept {
      return count_ == record.Length() && std::memcmp(bytes_, record.Bytes(), count_) == 0;
    }

    std::uint8_t const* bytes_ = nullptr;
    std::size_t count_ = 0;
  };

  static bool IsRun(DetFrame const& frame) noexcept {
    return frame.tag == static_cast<std::uint8_t>(FrameTag::kRun);
  }

  static Outcome FromManifest(Arguments const& arguments, Setup<J>& setup) noexcept {
    return setup.FromManifest(arguments.names[0], arguments.is_strict, arguments.seed.value_or(0));
  }

  EngineOptions OptionsOf(Arguments const& arguments, Setup<J> const& setup) const noexcept {
    EngineOptions options;
    options.workers = arguments.workers.value_or(setup.Workers());
    options.threads = options_.threads;
    return options;
  }

  static Outcome OutcomeOf(Engine<J> const& engine, Result<void> const& done) noexcept {
    return done ? Outcome() : Outcome::JobFault(engine.Cycles(), done.Error());
  }

  static Outcome RunCycle(Engine<J>& engine, DetTime const& time,
                          Span<DetSample const> samples) noexcept {
    std::optional<std::uint64_t> known;
    if (time.known) known = time.time;
    Result<void> done = engine.Begin(known);
    if (done) done = engine.End(samples);
    return OutcomeOf(engine, done);
  }

  /// Writes what the sink holds back. An error of the system is reported before any other outcome.
  static Outcome Flush(BufferedSink& sink, Outcome const& outcome) noexcept {
    bool const is_written = sink.Error() == 0 && sink.Finish();
    return is_written ? outcome : Outcome::WriteFault(sink.Error());
  }

  /// Runs a job over a source. `sink` gets the parts, and `out` is the descriptor that they go to.
  template <typename Source>
  Outcome RunOver(Arguments const& arguments, Setup<J> const& setup, RecordSink& sink,
                  DescriptorSink const& out) const noexcept {
    FrameSamples samples;
    if (!samples.Reserve()) return Outcome::OfStatus(DET_STATUS_OUT_OF_MEMORY);
    DetHeader const& header = setup.Header();
    Engine<J> engine(setup.Job(), sink);
    Result<void> done;
    DET_EXEC_TRY {
      Source source(header.profile.cycle_time);
      OpenLive(source);
      done = engine.Open(header, OptionsOf(arguments, setup));
      if (done) done = RunLive(engine, source, header.event_count, samples.Room());
    }
    DET_EXEC_CATCH_ALL { done = DeterministicErrc::kApplicationThrew; }
    if (!sink.Finish() && done) done = DeterministicErrc::kWriteFailed;
    if (!done && done.Error() == DeterministicErrc::kWriteFailed) {
      return Outcome::WriteFault(out.Error());
    }
    return OutcomeOf(engine, done);
  }

  /// Prints a verdict and the reports. The outcome is the given one, or a write fault.
  template <typename Text>
  Outcome Report(Outcome const& outcome, DetReports const& reports,
                 Text const& verdict) const noexcept {
    DetText line, lines;
    verdict(line);
    det_reports_text(&reports, &lines);
    BufferedSink sink(options_.out);
    bool const is_written = sink.Write(line.bytes, line.len) &&
                            sink.Write(lines.bytes, lines.len) && sink.Finish();
    return is_written ? outcome : Outcome::WriteFault(sink.Error());
  }

  ProgramOptions options_;
};

}  // namespace DET_EXEC_ABI
}  // namespace det::exec

#endif
