// Every call that reads, over random structs and bytes: it returns, and touches only what it was
// given. A sanitizer sees the rest. Flags hold true or false, as in any call of C.
#include <cstring>
#include <memory>
#include <random>

#include "check.h"
#include "det/exec/det_manifest.h"
#include "det/exec/det_reading.h"
#include "det/exec/det_record.h"
#include "det/exec/det_stimulus.h"
#include "det/exec/det_verdict.h"

namespace {

constexpr int kRounds = 100000;

std::mt19937_64 chance(7);

std::size_t Below(std::size_t most) { return static_cast<std::size_t>(chance() % most); }

/// A struct without flags, three quarters of whose bytes are 0.
template <typename T>
T Any() {
  T made;
  auto* bytes = reinterpret_cast<unsigned char*>(&made);
  for (std::size_t i = 0; i < sizeof made; ++i) {
    bytes[i] = static_cast<unsigned char>(chance() % 4 == 0 ? chance() : 0);
  }
  return made;
}

/// Bytes in a block of their own, so that a sanitizer sees a read after them.
struct Bytes {
  explicit Bytes(std::size_t length) : count(length), kept(new std::uint8_t[length]) {
    for (std::size_t i = 0; i < count; ++i) {
      kept[i] = static_cast<std::uint8_t>(chance() % 3 == 0 ? chance() : chance() % 6);
    }
  }
  std::uint8_t* data() const { return kept.get(); }

  std::size_t count;
  std::unique_ptr<std::uint8_t[]> kept;
};

/// Bytes that often begin like a header or a frame.
Bytes Likely() {
  Bytes bytes(Below(90));
  if (bytes.count > 8 && chance() % 2 == 0) std::memcpy(bytes.data(), "DETREC\0\2", 8);
  if (bytes.count > 0 && chance() % 2 == 0) {
    bytes.data()[0] = static_cast<std::uint8_t>(1 + chance() % 5);
  }
  return bytes;
}

/// A place of a record. Often it is one at which a frame can be.
DetReading AnyReading() {
  DetReading reading{};
  reading.record = Any<DetRecord>();
  reading.record.stage = static_cast<std::uint8_t>(Below(7));
  reading.record.format = static_cast<std::uint8_t>(1 + Below(2));
  return reading;
}

void Reading() {
  bool seen[4] = {};
  for (int round = 0; round < kRounds; ++round) {
    Bytes const bytes = Likely();
    DetReading reading = AnyReading();
    DetRecordFault fault{};
    DetHeader header;
    std::size_t length = 0;
    DetReading other = reading;
    (void)det_reading_header(&other, bytes.data(), bytes.count, &header, &length, &fault);
    DetFrame frame{};
    auto const read = det_reading_frame(&reading, bytes.data(), bytes.count, &frame, &fault);
    CHECK(read < 4);
    seen[read & 3] = true;
    CHECK(read != DET_READING_WHOLE || frame.length <= bytes.count);
    (void)det_reading_end(&reading, bytes.count, &fault);
  }
  CHECK(seen[0] && seen[1] && seen[2] && seen[3]);
}

void Views() {
  for (int round = 0; round < kRounds; ++round) {
    Bytes const bytes = Likely(), more = Likely();
    DetFrame view{};
    view.samples = Below(100);
    view.sample_count = static_cast<std::uint32_t>(chance());
    view.has_draws = chance() % 2 == 0;
    DetSample sample;
    (void)det_frame_sample(&view, bytes.data(), bytes.count,
                           static_cast<std::uint32_t>(Below(12)), &sample);
    std::size_t at = Below(100);
    DetElement element;
    (void)det_frame_element(&view, bytes.data(), bytes.count, &at, &element);
    DetPlace place{};
    CHECK(det_frame_difference(static_cast<std::uint8_t>(1 + Below(2)),
                               static_cast<std::uint16_t>(Below(3)),
                               static_cast<std::uint32_t>(round), bytes.data(), bytes.count,
                               more.data(), more.count, &place) <= DET_FRAMES_NONE);
  }
}

void Stimuli() {
  char const* const lines[] = {"stim 1\n",     "cycle 5\n", "sample 0 7\n",
                               "terminate\n", "cycle -\n", "sample 1 -0\n"};
  for (int round = 0; round < kRounds; ++round) {
    DetStimulus stimulus = Any<DetStimulus>();
    DetStimulusStep step;
    Bytes const bytes = Likely();
    char const* const line = lines[Below(6)];
    Bytes text(std::strlen(line));
    std::memcpy(text.data(), line, text.count);
    (void)det_stimulus_step(&stimulus, text.data(), Below(text.count + 1), &step);
    CHECK(det_stimulus_step(&stimulus, bytes.data(), bytes.count, &step) <= DET_STIMULUS_BAD);
    CHECK(step.taken <= bytes.count);
    std::uint64_t number = 0;
    (void)det_stimulus_end(&stimulus, bytes.count, &number);
    CHECK(det_stimulus_wanted(&stimulus, bytes.data(), bytes.count) <= DET_WANTED_LINE_FEED);
    CHECK(det_stimulus_wanted(&stimulus, text.data(), text.count) <= DET_WANTED_LINE_FEED);
  }
}

void ManifestsAndTexts() {
  for (int round = 0; round < kRounds / 50; ++round) {
    Bytes const bytes = Likely();
    auto manifest = std::make_unique<DetManifest>(Any<DetManifest>());
    manifest->init_needs.there = manifest->run_needs.there = chance() % 2 == 0;
    auto fault = Any<DetManifestFault>();
    auto const record_fault = Any<DetRecordFault>();
    auto const place = Any<DetPlace>();
    DetText text{};
    det_text_needs(manifest.get(), &text);
    det_text_bad_manifest(&fault, &text);
    det_text_departs(&place, &text);
    det_text_bad_record(static_cast<std::uint32_t>(chance()), &record_fault, &text);
    det_text_status(static_cast<std::uint8_t>(chance()), &text);
    CHECK(text.len <= sizeof text.bytes);
    (void)det_manifest_is_job(manifest.get(), bytes.data(), bytes.count);
    CHECK(det_manifest_toml_line(bytes.data(), bytes.count) <= bytes.count + 1);
    (void)det_manifest_read(manifest.get(), &fault, bytes.data(), bytes.count, true);
  }
}

/// A cycle that is written without lists has the bytes of one that is written with them.
void CyclesWithoutLists() {
  for (int round = 0; round < kRounds / 50; ++round) {
    DetRecord record{0, 2, static_cast<std::uint8_t>(1 + Below(2)), 4}, same = record;
    DetSample const samples[2] = {{5, 0}, {-7, 1}};
    DetTime const time{chance(), chance() % 2 == 0};
    DetElement elements[5] = {};
    for (DetElement& element : elements) {
      element.len = static_cast<std::uint8_t>(Below(65));
      element.draws = static_cast<std::uint32_t>(chance());
    }
    Bytes const output(Below(40));
    std::uint8_t whole[600], pieces[600];
    std::size_t count = 0, at = 0, written = 0;
    CHECK(det_record_finished(&record, &time, samples, 2, elements, 5, output.data(), output.count,
                              whole, sizeof whole, &count) == DET_RECORD_DONE);
    DetRun run{};
    CHECK(det_run_open(&run, &same, &time, samples, 2, 5, pieces, sizeof pieces, &at) ==
          DET_RECORD_DONE);
    for (DetElement const& element : elements) {
      CHECK(det_run_element(&run, element.bytes, element.len, element.draws, pieces + at,
                            sizeof pieces - at, &written) == DET_RECORD_DONE);
      at += written;
    }
    CHECK(det_run_close(&run, &same, output.data(), output.count, pieces + at, sizeof pieces - at,
                        &written) == DET_RECORD_DONE);
    CHECK(at + written == count && std::memcmp(whole, pieces, count) == 0);
    CHECK(std::memcmp(&record, &same, sizeof record) == 0);
  }
}

}  // namespace

int main() {
  check::Test("total: headers and frames of random bytes", Reading);
  check::Test("total: views of random frames", Views);
  check::Test("total: stimuli", Stimuli);
  check::Test("total: manifests and texts", ManifestsAndTexts);
  check::Test("total: a cycle without lists has the bytes of one with lists", CyclesWithoutLists);
  return check::Status();
}
