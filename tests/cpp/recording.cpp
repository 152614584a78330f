// Records that are written part by part, against the worked bytes of docs/FORMATS.md, and the
// errors of a recorder.
#include <fcntl.h>
#include <sys/syscall.h>
#include <unistd.h>

#include <cerrno>
#include <fstream>
#include <sstream>
#include <string>

#include "det/exec/recorder.h"
#include "det/exec/spelling.h"
#include "answers.h"
#include "check.h"
#include "sinks.h"

namespace {

bool slow_writes = false;
int writes = 0;

}  // namespace

/// Stands in for the system's call. A slow one takes at most seven bytes, and is interrupted every
/// third time.
extern "C" ssize_t write(int descriptor, void const* bytes, std::size_t count) {
  if (slow_writes && ++writes % 3 == 0) {
    errno = EINTR;
    return -1;
  }
  return syscall(SYS_write, descriptor, bytes, slow_writes && count > 7 ? 7 : count);
}

using namespace det::exec;

namespace {

constexpr DetProfile kProfile{0, 10000000, 1};
constexpr std::int64_t kParams[] = {4, 2};

std::string HexOf(std::vector<std::uint8_t> const& bytes) {
  std::string text;
  for (std::uint8_t byte : bytes) {
    text += "0123456789abcdef"[byte >> 4];
    text += "0123456789abcdef"[byte & 15];
  }
  return text;
}

std::string Times(unsigned count, std::string const& text) {
  std::string all;
  while (count-- != 0) all += text;
  return all;
}

DetElement Level(std::int64_t level) {
  DetElement element{};
  Spelling(element).I64(level);
  return element;
}

/// Brings a recorder to its cycles, with one event and four elements.
bool Opens(Recorder& recorder) {
  DetEvent const events[] = {EventOf("x", 2)};
  std::vector<DetElement> const elements(4, Level(0));
  return recorder.Header(kProfile, kParams, events) && recorder.Register() &&
         recorder.Discover() && recorder.Init(elements);
}

std::string const kOpening =
    "444554524543" "0002" "0001" "0000000000000000" "0000000000989680"
    "0002" "0000000000000004" "0000000000000002" "0001" "0002" "01" "78" "00" "01" "02"
    "03" "00000004" + Times(4, "0008" "0000000000000000");

void TheWorkedRecord() {
  KeptBytes sink;
  Recorder recorder(sink);
  CHECK(Opens(recorder) && recorder.Terminate());
  CHECK(sink.kept.size() == 99 && HexOf(sink.kept) == kOpening + "05");
}

void TheWorkedRun() {
  KeptBytes sink;
  Recorder recorder(sink);
  CHECK(Opens(recorder));
  std::vector<DetElement> const elements(4, Level(25));
  std::vector<std::uint8_t> output;
  Spelling(output).I64(100).I64(25).I64(25);
  CHECK(recorder.Finished({10000000, {}}, elements, output) && recorder.Terminate());
  CHECK(HexOf(sink.kept) == kOpening + "04" "01" "0000000000989680" "00000000" "00" "00000004" +
                                Times(4, "0008" "0000000000000019" "00000000") + "00000018"
                                "0000000000000064" "0000000000000019" "0000000000000019" "05");
}

void SamplesAndRefusals() {
  KeptBytes sink;
  Recorder recorder(sink);
  CHECK(Opens(recorder));
  DetSample const samples[] = {{-1, 0}, {1000000000000, 0}};
  DetElement drew = Level(-2);
  drew.draws = 258;
  CHECK(recorder.Finished({std::nullopt, samples}, {&drew, 1}));
  CHECK(recorder.Refused({std::nullopt, {}}, RefusalPhase::kPrepare, 1));
  CHECK(recorder.RefusedInPass({UINT64_MAX, {}}, 7, 65535, 2));
  CHECK(recorder.Refused({std::nullopt, {}}, RefusalPhase::kConclude, UINT32_MAX));
  CHECK(recorder.Terminate());
  CHECK(HexOf(sink.kept) ==
        kOpening + "04" "00" "00000002" "0000" "ffffffffffffffff" "0000" "000000e8d4a51000"
                   "00" "00000001" "0008" "fffffffffffffffe" "00000102" "00000000"
                   "04" "00" "00000000" "01" "00" "00" "00000000" "00000001"
                   "04" "01" "ffffffffffffffff" "00000000" "01" "01" "07" "0000ffff" "00000002"
                   "04" "00" "00000000" "01" "02" "00" "00000000" "ffffffff" "05");
}

void PartsOutOfPlace() {
  KeptBytes sink;
  Recorder recorder(sink);
  CHECK(Refuses(recorder.Register(), DeterministicErrc::kMisplaced));
  CHECK(Refuses(recorder.Terminate(), DeterministicErrc::kMisplaced) && sink.kept.empty());
  CHECK(recorder.Header(kProfile));
  CHECK(Refuses(recorder.Header(kProfile), DeterministicErrc::kMisplaced));
  CHECK(Refuses(recorder.Discover(), DeterministicErrc::kMisplaced));
  CHECK(recorder.Register() && recorder.Discover());
  CHECK(Refuses(recorder.Finished({}, {}), DeterministicErrc::kMisplaced));
  CHECK(recorder.Init({}) && recorder.Finished({}, {}) && recorder.Terminate());
  std::vector<std::uint8_t> const whole = sink.kept;
  CHECK(Refuses(recorder.Terminate(), DeterministicErrc::kMisplaced));
  CHECK(Refuses(recorder.Finished({}, {}), DeterministicErrc::kMisplaced));
  CHECK(sink.kept == whole);
}

bool HeaderOutOfRange(DetProfile const& profile, std::vector<std::int64_t> const& params,
                      std::vector<DetEvent> const& events) {
  KeptBytes sink;
  Recorder recorder(sink);
  return Refuses(recorder.Header(profile, params, events), DeterministicErrc::kOutOfRange) &&
         sink.kept.empty() && recorder.Header(kProfile);
}

void HeadersOutOfRange() {
  std::string const long_name(33, 'a'), longest_name(32, 'z');
  CHECK(HeaderOutOfRange({0, 0, 1}, {}, {}));
  CHECK(HeaderOutOfRange({0, std::uint64_t{1} << 63, 1}, {}, {}));
  CHECK(HeaderOutOfRange(kProfile, std::vector<std::int64_t>(17), {}));
  CHECK(HeaderOutOfRange(kProfile, {}, std::vector<DetEvent>(257, EventOf("x", 1))));
  for (std::string const& name : {std::string(), std::string("X"), std::string("a-b"), long_name,
                                  std::string(1000, 'a')}) {
    CHECK(HeaderOutOfRange(kProfile, {}, {EventOf(name, 1)}));
  }
  CHECK(HeaderOutOfRange(kProfile, {}, {EventOf({}, 1)}));  // a view of nothing
  CHECK(HeaderOutOfRange(kProfile, {}, {EventOf("x", 0)}));
  CHECK(HeaderOutOfRange(kProfile, {}, {EventOf("x", 1025)}));
  CHECK(HeaderOutOfRange(kProfile, {}, {EventOf("x", 1, static_cast<WindowPolicy>(2))}));
  KeptBytes sink;
  Recorder recorder(sink);
  CHECK(recorder.Header({UINT64_MAX, INT64_MAX, UINT16_MAX}, std::vector<std::int64_t>(16),
                        std::vector<DetEvent>(256, EventOf(longest_name, 1024))));
}

void CyclesOutOfRange() {
  KeptBytes sink;
  Recorder recorder(sink);
  CHECK(Opens(recorder));
  std::size_t const opening = sink.kept.size();
  constexpr auto kRange = DeterministicErrc::kOutOfRange;
  DetSample const great[] = {{1000000000001, 0}}, unknown[] = {{0, 1}};
  std::vector<DetSample> const many(4097, DetSample{0, 0});
  DetElement const long_element{{}, 0, 65};
  std::vector<DetElement> const elements(65537);
  std::vector<std::uint8_t> const output(1048577);
  CHECK(Refuses(recorder.Finished({{}, great}, {}), kRange));
  CHECK(Refuses(recorder.Finished({{}, unknown}, {}), kRange));
  CHECK(Refuses(recorder.Refused({{}, many}, RefusalPhase::kPrepare, 0), kRange));
  CHECK(Refuses(recorder.Finished({}, {&long_element, 1}), kRange));
  CHECK(Refuses(recorder.Finished({}, elements), kRange));
  CHECK(Refuses(recorder.Finished({}, {}, output), kRange));
  CHECK(Refuses(recorder.Refused({}, static_cast<RefusalPhase>(3), 0), kRange));
  CHECK(Refuses(recorder.RefusedInPass({}, 8, 0, 0), kRange));
  CHECK(Refuses(recorder.RefusedInPass({}, 0, 65536, 0), kRange));
  CHECK(sink.kept.size() == opening && recorder.Terminate());
}

void AnElementOfTooManyBytes() {
  DetElement element{};
  Spelling spelling(element);
  for (std::uint8_t k = 0; k < 64; ++k) spelling.U8(k);
  CHECK(element.len == 64 && element.bytes[63] == 63);
  spelling.U64(7).U64(7);
  CHECK(element.len == 65 && element.bytes[63] == 63 && element.draws == 0);
}

void TheGreatestPart() {
  KeptBytes sink;
  Recorder recorder(sink);
  CHECK(Opens(recorder));
  std::size_t const opening = sink.kept.size();
  std::vector<DetSample> const samples(4096, DetSample{-1, 0});
  std::vector<DetElement> const elements(65536, DetElement{{1, 2, 3}, 4, 64});
  std::vector<std::uint8_t> const output(1048576, 9);
  CHECK(recorder.Finished({7, samples}, elements, output) && recorder.Terminate());
  // tag, time, samples, outcome, elements and output, and the byte of Terminate
  CHECK(sink.kept.size() - opening ==
        1 + 9 + 4 + 4096 * 10 + 1 + 4 + 65536 * 70 + 4 + 1048576 + 1);
}

/// Takes this many writes, then fails.
class Full final : public RecordSink {
 public:
  explicit Full(int most) : left_(most) {}
  bool Write(std::uint8_t const*, std::size_t) noexcept override { return left_-- > 0; }
  bool Finish() noexcept override { return left_ > 0; }

 private:
  int left_;
};

void AFailedWriteStays() {
  Full sink(2);
  Recorder recorder(sink);
  CHECK(recorder.Header(kProfile) && recorder.Register());
  CHECK(Refuses(recorder.Discover(), DeterministicErrc::kWriteFailed));
  CHECK(Refuses(recorder.Init({}), DeterministicErrc::kWriteFailed));
  CHECK(Refuses(recorder.Header(kProfile), DeterministicErrc::kWriteFailed));
  Full late(5);
  Recorder other(late);
  CHECK(other.Header(kProfile) && other.Register() && other.Discover() && other.Init({}));
  CHECK(Refuses(other.Terminate(), DeterministicErrc::kWriteFailed));
}

void Streams() {
  std::ostringstream stream;
  StreamSink sink(stream);
  Recorder recorder(sink);
  std::vector<std::uint8_t> const output(1000, 0xab);
  CHECK(Opens(recorder) && recorder.Finished({}, {}, output) && recorder.Terminate());
  std::string const written = stream.str();
  CHECK(HexOf({written.begin(), written.end()}) ==
        kOpening + "04" "00" "00000000" "00" "00000000" "000003e8" + Times(1000, "ab") + "05");
  std::ofstream held("/dev/full", std::ios::binary);  // a short record is held back up to its end
  StreamSink full(held);
  Recorder other(full);
  CHECK(Opens(other) && Refuses(other.Terminate(), DeterministicErrc::kWriteFailed));
}

void AStreamThatThrows() {
  class Nothing final : public std::streambuf {
  } nothing;  // takes no byte
  for (auto mask : {std::ios::goodbit, std::ios::badbit}) {
    std::ostream stream(&nothing);
    stream.exceptions(mask);
    StreamSink sink(stream);
    Recorder recorder(sink);
    CHECK(Refuses(recorder.Header(kProfile), DeterministicErrc::kWriteFailed));
  }
}

/// Whether the record that goes through a pipe is the worked one.
bool GoesThrough(int (&ends)[2]) {
  DescriptorSink sink(ends[1]);
  Recorder recorder(sink);
  if (!Opens(recorder) || !recorder.Terminate()) return false;
  std::vector<std::uint8_t> bytes(200);
  if (read(ends[0], bytes.data(), bytes.size()) != 99) return false;
  bytes.resize(99);
  return HexOf(bytes) == kOpening + "05";
}

void Descriptors() {
  int ends[2];
  CHECK(pipe(ends) == 0 && GoesThrough(ends));
  slow_writes = true;
  CHECK(GoesThrough(ends) && writes > 99 / 7);
  slow_writes = false;
  close(ends[0]);
  close(ends[1]);
  DescriptorSink sink(ends[1]);
  Recorder closed(sink);
  CHECK(Refuses(closed.Header(kProfile), DeterministicErrc::kWriteFailed));
  int const full = open("/dev/full", O_WRONLY);
  DescriptorSink device(full);
  Recorder other(device);
  CHECK(full >= 0 && Refuses(other.Header(kProfile), DeterministicErrc::kWriteFailed));
  close(full);
}

}  // namespace

int main() {
  check::Test("recording: the worked record", TheWorkedRecord);
  check::Test("recording: the worked run", TheWorkedRun);
  check::Test("recording: samples, draws and refusals", SamplesAndRefusals);
  check::Test("recording: parts out of place write nothing", PartsOutOfPlace);
  check::Test("recording: headers out of range write nothing", HeadersOutOfRange);
  check::Test("recording: cycles out of range write nothing", CyclesOutOfRange);
  check::Test("recording: an element of more than 64 bytes", AnElementOfTooManyBytes);
  check::Test("recording: the greatest part", TheGreatestPart);
  check::Test("recording: a failed write stays", AFailedWriteStays);
  check::Test("recording: streams", Streams);
  check::Test("recording: streams that fail, with and without exceptions", AStreamThatThrows);
  check::Test("recording: descriptors that take, take a few bytes, are closed and are full",
              Descriptors);
  return check::Status();
}
