// Counts requests for memory while a job runs, by functions in place of those of the C library.
//
//     in_cycles live WORKERS ELEMENTS CYCLES   ends with 1 if a cycle takes memory
//     in_cycles files SHORT LONG               the same for check and replay of two records
//     in_cycles refused WORDS ..               a command with each request refused in turn
#include <atomic>
#include <cerrno>
#include <cstdio>
#include <cstdlib>
#include <cstring>

namespace counted {

std::atomic<unsigned long> calls{0};
std::atomic<unsigned long> refused{~0ul};  // the call that gets no memory

bool Refuses() {
  if (++calls != refused) return false;
  errno = ENOMEM;
  return true;
}

}  // namespace counted

extern "C" {
void* __libc_malloc(std::size_t);
void* __libc_calloc(std::size_t, std::size_t);
void* __libc_realloc(void*, std::size_t);
void* __libc_memalign(std::size_t, std::size_t);

void* malloc(std::size_t size) { return counted::Refuses() ? nullptr : __libc_malloc(size); }
void* calloc(std::size_t count, std::size_t size) {
  return counted::Refuses() ? nullptr : __libc_calloc(count, size);
}
void* realloc(void* block, std::size_t size) {
  return counted::Refuses() ? nullptr : __libc_realloc(block, size);
}
void* aligned_alloc(std::size_t align, std::size_t size) {
  return counted::Refuses() ? nullptr : __libc_memalign(align, size);
}
int posix_memalign(void** block, std::size_t align, std::size_t size) {
  *block = counted::Refuses() ? nullptr : __libc_memalign(align, size);
  return *block == nullptr ? ENOMEM : 0;
}
}

#define main main_of_cloud
#include "../../examples/cpp/cloud.cpp"
#undef main

namespace {

/// A source whose samples refuse some cycles, before the passes and after them.
class Bus final : public LiveSource {
 public:
  explicit Bus(std::uint32_t cycles) : cycles_(cycles) {}

  Activation Next() override {
    if (run_ > 0) taken_ += counted::calls - before_;
    before_ = counted::calls;
    if (run_ == cycles_) return {true, std::nullopt};
    return {false, std::uint64_t{run_++} * 10000000};
  }

  void Arrived(Arrivals& arrivals) override {
    for (int k = 0; k < 20; ++k) (void)arrivals.Add(0, k * 1000);
    (void)arrivals.Add(1, run_ % 7 == 3 ? 1000000000 : 5);
    (void)arrivals.Add(2, run_ % 11 == 5 ? -1 : 1);
  }

  unsigned long Taken() const { return taken_; }

 private:
  std::uint32_t cycles_, run_ = 0;
  unsigned long before_ = 0, taken_ = 0;
};

class Nowhere final : public RecordSink {
 public:
  bool Write(std::uint8_t const*, std::size_t) noexcept override { return true; }
};

int Live(std::uint32_t workers, std::int64_t elements, std::uint32_t cycles) {
  std::int64_t const params[] = {elements, 1000, 50, 1400000};
  DetEvent const events[] = {EventOf("x", 1), EventOf("y", 16),
                             EventOf("hold", 1, WindowPolicy::kFresh)};
  DetHeader const header = HeaderOf(DetProfile{9, 10000000, 2}, {params, 4}, {events, 3});
  Parameters given({params, 4}, 3);
  Nowhere sink;
  Engine<Cloud> engine(Cloud(given), sink);
  static DetSample room[64];
  Bus bus(cycles);
  EngineOptions options;
  options.workers = workers;
  options.samples = 64;
  Result<void> done = engine.Open(header, options);
  if (done) done = RunLive(engine, bus, 3, {room, 64});
  std::printf("%lu requests in %u cycles: %s\n", bus.Taken(), engine.Cycles(),
              done ? "done" : done.Error().Message());
  return done && bus.Taken() == 0 && engine.Cycles() == cycles ? 0 : 1;
}

ProgramOptions IntoNothing() {
  ProgramOptions options;
  options.out = options.err = ::open("/dev/null", O_WRONLY);
  return options;
}

/// How many requests a command over a record makes.
unsigned long RequestsOf(char const* command, char const* record) {
  static ProgramOptions const options = IntoNothing();
  char const* words[] = {"cloud", command, record, "--workers", "4"};
  unsigned long const before = counted::calls;
  (void)Main<Cloud>(5, words, options);
  return counted::calls - before;
}

int Files(char const* short_record, char const* long_record) {
  bool equal = true;
  for (char const* command : {"check", "replay"}) {
    (void)RequestsOf(command, long_record);  // the C library keeps some blocks from here on
    unsigned long const few = RequestsOf(command, short_record);
    unsigned long const many = RequestsOf(command, long_record);
    std::printf("%s: %lu and %lu requests\n", command, few, many);
    equal = equal && few == many;
  }
  return equal ? 0 : 1;
}

/// A command ends with 8 if a request is refused, or didn't need it.
int Refused(int count, char const* const* words) {
  ProgramOptions const options = IntoNothing();
  int ended[256] = {};
  for (unsigned long k = 1;; ++k) {
    unsigned long const wanted = counted::calls + k;
    counted::refused = wanted;
    int const status = Main<Cloud>(count, words, options);
    bool const was_reached = counted::calls >= wanted;
    counted::refused = ~0ul;
    ++ended[status];
    if (status != 0 && status != 8) return 1;
    if (!was_reached) break;
  }
  std::printf("%s: %d times 8, %d times 0\n", words[1], ended[8], ended[0]);
  return ended[8] > 0 && ended[0] > 0 ? 0 : 1;
}

}  // namespace

int main(int count, char** words) {
  if (count == 5 && std::strcmp(words[1], "live") == 0) {
    auto const number = [words](int at) { return std::strtol(words[at], nullptr, 10); };
    return Live(static_cast<std::uint32_t>(number(2)), number(3),
                static_cast<std::uint32_t>(number(4)));
  }
  if (count == 4 && std::strcmp(words[1], "files") == 0) return Files(words[2], words[3]);
  if (count > 2 && std::strcmp(words[1], "refused") == 0) return Refused(count - 1, words + 1);
  return 2;
}
