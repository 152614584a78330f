// The engine of a job: refused cycles, faults of the job, windows, parameters.
#include <stdexcept>
#include <vector>

#include "check.h"
#include "det/exec/application.h"

using namespace det::exec;

namespace {

/// Keeps each part of a record.
class KeptParts final : public RecordSink {
 public:
  bool Write(std::uint8_t const* bytes, std::size_t count) noexcept override {
    parts.emplace_back(bytes, bytes + count);
    return true;
  }

  std::vector<std::vector<std::uint8_t>> parts;
};

struct Sum {
  std::int64_t all = 0, scratch[3] = {};
};

/// A job that does in each cycle what its newest sample says.
class Scripted final : public Job<std::int64_t, Sum> {
 public:
  enum Does : std::int64_t {
    kPlain,
    kPrepare,
    kPool,
    kConclude,
    kThrow,
    kNine,
    kLong,
    kIgnore,
    kOwn
  };

  void Init(Start<Scripted>& start) const {
    start.Resize(200, 5);
    start.ReserveOutput(16);
    start.ReserveElement(8);
  }

  void Run(Cycle<Scripted>& cycle) const {
    std::int64_t const does = cycle.Newest(0).value_or(kPlain);
    if (does == kPrepare) cycle.Refuse(7);
    cycle.State().all += 1;
    auto const work = [does](std::int64_t& element, WorkerThread& thread) {
      element += static_cast<std::int64_t>(thread.GetRandom() % 10);
      if (does == kPool && element % 3 == 0) thread.Refuse(thread.Element() + 1000);
      if (does == kIgnore && thread.Element() == 130) thread.Refuse(3);
      if (does == kThrow && thread.Element() == 77) throw std::runtime_error("77");
    };
    if (!cycle.Pass(work) && does != kIgnore) return;
    for (int more = 0; does == kNine && more < 8; ++more) (void)cycle.Pass(work);
    if (does == kOwn) PassOverScratch(cycle);
    cycle.SetRandomSeed(cycle.GetRandom());
    if (does == kConclude) cycle.Refuse(8);
    cycle.Output().I64(cycle.State().all);
    for (int more = 0; does == kLong && more < 2; ++more) cycle.Output().I64(0);
  }

 private:
  static void PassOverScratch(Cycle<Scripted>& cycle) {
    auto const draw = [](std::int64_t& each, WorkerThread& thread) {
      each = static_cast<std::int64_t>(thread.GetRandom() % 2);
    };
    (void)cycle.Pass(draw, cycle.State().scratch);
  }
};

struct Ran {
  KeptParts sink;
  Result<void> done;

  /// A part that is a frame, read again.
  DetFrame Frame(std::size_t part) const {
    DetReading reading{};
    reading.record = DetRecord{0, 1, 2, 4};
    DetFrame frame{};
    DetRecordFault fault{};
    auto const& bytes = sink.parts[part];
    (void)det_reading_frame(&reading, bytes.data(), bytes.size(), &frame, &fault);
    return frame;
  }
};

/// Runs the job over these samples, one a cycle. Parts 0 to 3 are the header, Register, Discover
/// and Init; part 4 is the first cycle, which sees no sample.
void Run(std::vector<std::int64_t> const& samples, std::uint32_t workers, Ran& ran) {
  DetEvent const events[] = {EventOf("does", 1, WindowPolicy::kFresh)};
  Engine<Scripted> engine(Scripted(), ran.sink);
  EngineOptions options;
  options.workers = workers;
  ran.done = engine.Open(HeaderOf(DetProfile{3, 10, 99}, {}, {events, 1}), options);
  for (std::size_t i = 0; ran.done && i < samples.size(); ++i) {
    ran.done = engine.Begin(i);
    DetSample const sample{samples[i], 0};
    if (ran.done) ran.done = engine.End({&sample, 1});
  }
  if (ran.done) ran.done = engine.Close();
}

void RefusedCycles() {
  Ran one, four;
  std::vector<std::int64_t> const samples{0, 1, 0, 2, 0, 3, 0, 7, 0, 8, 0};
  Run(samples, 1, one);
  Run(samples, 4, four);
  CHECK(one.done && one.sink.parts == four.sink.parts);
  auto const is_refused = [&one](std::size_t part, std::uint8_t phase) {
    DetFrame const frame = one.Frame(part);
    return frame.refused && frame.refusal.phase == phase;
  };
  CHECK(is_refused(6, 0) && one.Frame(6).refusal.code == 7);
  CHECK(is_refused(8, 1));
  CHECK(one.Frame(8).refusal.code == one.Frame(8).refusal.element + 1000);
  CHECK(is_refused(10, 2) && one.Frame(10).refusal.code == 8);
  CHECK(is_refused(12, 1) && one.Frame(12).refusal.element == 130);
  // The output has the number of finished cycles: 7 of 11.
  DetFrame const last = one.Frame(14);
  CHECK(!last.refused && one.sink.parts[14][last.output + 7] == 7);
}

void RefusalsLeaveNothing() {
  Ran prepared, in_pool;
  Run({0, 1, 0}, 2, prepared);
  Run({0, 2, 0}, 2, in_pool);
  CHECK(prepared.Frame(6).refused && in_pool.Frame(6).refused);
  CHECK(prepared.sink.parts[7] == in_pool.sink.parts[7]);
}

/// The elements drew one number each; the three of the state aren't counted.
void OtherContainers() {
  Ran ran;
  Run({8, 0}, 4, ran);
  CHECK(ran.done);
  DetFrame const frame = ran.Frame(5);
  auto const& bytes = ran.sink.parts[5];
  std::size_t at = frame.elements;
  DetElement element{};
  for (int k = 0; k < 200; ++k) {
    CHECK(det_frame_element(&frame, bytes.data(), bytes.size(), &at, &element));
    CHECK(element.draws == 1);
  }
}

void Faults() {
  struct Fault {
    std::int64_t does;
    DeterministicErrc code;
    std::uint32_t element;
  };
  for (Fault const& fault : {Fault{Scripted::kThrow, DeterministicErrc::kApplicationThrew, 77},
                             Fault{Scripted::kNine, DeterministicErrc::kTooManyPasses, 0},
                             Fault{Scripted::kLong, DeterministicErrc::kOutputTooLong, 0}}) {
    Ran ran;
    Run({0, fault.does, 0}, 4, ran);
    CHECK(!ran.done && ran.done.Error() == DeterministicError{fault.code, fault.element});
    CHECK(ran.sink.parts.size() == 6);
  }
}

void ParametersOneByOne() {
  std::int64_t const given[] = {5, 50};
  Parameters good({given, 2}, 0), range({given, 2}, 0), few({given, 1}, 0), many({given, 2}, 0);
  CHECK(good.Take("a", 1, 9) == 5 && good.Take("b", 1, 99) == 50 && !good.Bad());
  CHECK(range.Take("a", 6, 9) == 6 && range.Take("b", 1, 9) == 1 && range.Bad()->number == 0);
  CHECK(few.Take("a", 1, 9) == 5 && few.Take("b", 2, 9) == 2 && few.Bad()->number == 1);
  CHECK(many.Take("a", 1, 9) == 5 && many.Bad()->number == 1 && many.Bad()->name == nullptr);
}

/// A job whose elements are longer than a record allows, and one with too many.
class TooLong final : public Job<std::int64_t> {
 public:
  explicit TooLong(std::size_t count) : count_(count) {}
  void Init(Start<TooLong>& start) const { start.Resize(count_); }
  void Run(Cycle<TooLong>&) const {}
  static void Spell(std::int64_t element, ElementSpelling& out) {
    for (int k = 0; k < 9; ++k) out.I64(element);
  }

 private:
  std::size_t count_;
};

void JobsOutOfRange() {
  for (auto const& [count, code] : {std::pair{std::size_t{1}, DeterministicErrc::kOutOfRange},
                                    std::pair{std::size_t{65537},
                                              DeterministicErrc::kTooManyElements}}) {
    KeptParts sink;
    Engine<TooLong> engine(TooLong(count), sink);
    Result<void> const done = engine.Open(HeaderOf(DetProfile{0, 1, 1}), {});
    CHECK(done.CheckError(code) && sink.parts.size() == 3);
  }
}

/// A job whose elements are written in 0 to 8 bytes, each of its own length.
class Ragged final : public Job<std::uint64_t> {
 public:
  explicit Ragged(std::size_t reserved, bool throws = false)
      : reserved_(reserved), throws_(throws) {}
  void Init(Start<Ragged>& start) const {
    std::uint64_t number = 0;
    for (std::uint64_t& element : start.Resize(5000)) element = number++;
    start.ReserveElement(reserved_);
  }
  void Run(Cycle<Ragged>& cycle) const {
    (void)cycle.Pass([throws = throws_](std::uint64_t& element, WorkerThread& thread) {
      if (element % 3 != 0) element += thread.GetRandom() % 9;
      if (throws && thread.Element() == 4321) element = kThrows;
    });
  }
  static void Spell(std::uint64_t element, ElementSpelling& out) {
    if (element == kThrows) throw std::runtime_error("spelling");
    for (std::uint64_t k = 0; k < element % 9; ++k) out.U8(static_cast<std::uint8_t>(element + k));
  }

 private:
  static constexpr std::uint64_t kThrows = 1000000;

  std::size_t reserved_;
  bool throws_;
};

/// The parts of two cycles of a job.
std::vector<std::vector<std::uint8_t>> PartsOf(Ragged const& job, std::uint32_t workers,
                                               std::uint8_t format, DeterministicErrc& code) {
  KeptParts sink;
  Engine<Ragged> engine(job, sink);
  DetHeader header = HeaderOf(DetProfile{0, 1, 1});
  header.format = format;
  EngineOptions options;
  options.workers = workers;
  Result<void> done = engine.Open(header, options);
  for (int cycle = 0; done && cycle < 2; ++cycle) {
    done = engine.Begin(std::nullopt);
    if (done) done = engine.End({});
  }
  if (!done) code = done.Error().code;
  return sink.parts;
}

void SpelledInBlocks() {
  for (std::uint8_t const format : {std::uint8_t{1}, std::uint8_t{2}}) {
    DeterministicErrc code{};
    // No element has more than 8 bytes. With 2 reserved, each is put by a call of its own.
    auto const one_by_one = PartsOf(Ragged(2), 1, format, code);
    CHECK(one_by_one.size() == 6);
    for (std::uint32_t const workers : {1u, 4u, 16u}) {
      CHECK(PartsOf(Ragged(8), workers, format, code) == one_by_one);
      CHECK(PartsOf(Ragged(64), workers, format, code) == one_by_one);
    }
    CHECK(code == DeterministicErrc{});
    for (std::uint32_t const workers : {1u, 4u}) {
      CHECK(PartsOf(Ragged(8, true), workers, format, code).size() == 4);
      CHECK(code == DeterministicErrc::kApplicationThrew);
      code = {};
    }
  }
}

}  // namespace

int main() {
  check::Test("engine: refused cycles, the same for each number of workers", RefusedCycles);
  check::Test("engine: a refused cycle leaves no change", RefusalsLeaveNothing);
  check::Test("engine: draws of another container aren't counted", OtherContainers);
  check::Test("engine: a fault of the job ends the run without a frame", Faults);
  check::Test("engine: jobs that are out of range", JobsOutOfRange);
  check::Test("engine: elements are the same in blocks and one by one", SpelledInBlocks);
  check::Test("engine: the first bad parameter", ParametersOneByOne);
  return check::Status();
}
