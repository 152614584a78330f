// Every request for memory refused in turn: those of the headers, by operator new. The proved code
// makes none; its three functions, which the test defines itself, would count one.
#include <cstdlib>
#include <cstring>
#include <new>

#include "det/exec/file_input.h"
#include "det/exec/recorder.h"
#include "det/exec/spelling.h"
#include "check.h"
#include "script.h"

namespace {

/// Requests that are granted before one is refused, or before all are; none where it is negative.
long granted = -1;
bool all_after = false;
long requests = 0;

bool Refused() {
  ++requests;
  if (granted < 0) return false;
  return all_after ? requests > granted : requests == granted + 1;
}

void* Taken(std::size_t size) { return Refused() ? nullptr : std::malloc(size); }

struct Tried {
  bool done;
  void* block;
};

alignas(16) char nothing[16];

Tried TriedOf(void* block) { return {block != nullptr, block != nullptr ? block : nothing}; }

}  // namespace

extern "C" {
Tried rattle_alloc(std::size_t size, std::size_t align) {
  return TriedOf(Taken(size != 0 ? size : align));
}
Tried rattle_realloc(void* block, std::size_t, std::size_t size, std::size_t align) {
  return TriedOf(Refused() ? nullptr : std::realloc(block, size != 0 ? size : align));
}
void rattle_dealloc(void* block) { std::free(block); }
}

void* operator new(std::size_t size) {
  if (void* block = Taken(size)) return block;
  throw std::bad_alloc();
}
void* operator new(std::size_t size, std::nothrow_t const&) noexcept { return Taken(size); }
void* operator new[](std::size_t size) { return operator new(size); }
void* operator new[](std::size_t size, std::nothrow_t const&) noexcept { return Taken(size); }
void operator delete(void* block) noexcept { std::free(block); }
void operator delete(void* block, std::size_t) noexcept { std::free(block); }
void operator delete[](void* block) noexcept { std::free(block); }
void operator delete[](void* block, std::size_t) noexcept { std::free(block); }

using namespace det::exec;

namespace {

/// Keeps bytes without a request for memory.
class Fixed final : public RecordSink {
 public:
  bool Write(std::uint8_t const* bytes, std::size_t count) noexcept override {
    if (size + count > sizeof kept) return false;
    std::memcpy(kept + size, bytes, count);
    size += count;
    return true;
  }

  std::uint8_t kept[100000];
  std::size_t size = 0;
};

class Source final : public ActivationSource {
  Activation Next() override { return {false, 5}; }
};

class Draw final : public WorkerRunnable<std::uint64_t> {
  void Run(std::uint64_t& element, WorkerThread& thread) override { element ^= thread.GetRandom(); }
};

/// How a run ended: how often memory was wanting, and whether it came to its end.
struct Ended {
  int wanting = 0;
  bool whole = false;
};

/// Makes calls, each again as long as memory is wanting, a few times.
class Trial {
 public:
  template <typename Call>
  bool Done(Call&& call) {
    for (int tries = 0; tries < 3; ++tries) {
      auto const answer = call();
      if (answer) return true;
      if (answer.Error().code != DeterministicErrc::kNoMemory) return false;
      ++wanting;
    }
    return false;
  }

  int wanting = 0;
};

constexpr std::size_t kCount = 300;
std::uint64_t elements[kCount];
DetElement spelled[kCount];

void Spell(Span<std::uint32_t const> draws) {
  for (std::size_t i = 0; i < kCount; ++i) {
    spelled[i] = DetElement{};
    Spelling(spelled[i]).U64(elements[i]);
    if (!draws.empty()) spelled[i].draws = draws[i];
  }
}

bool Cycle(Trial& trial, DeterministicClient& client, Recorder& recorder, EventWindow& window) {
  Draw draw;
  DetSample const samples[] = {{static_cast<std::int64_t>(client.Cycle()), 0}};
  bool const ran = trial.Done([&] { return client.RunWorkerPool(draw, elements); }) &&
                   trial.Done([&] { return client.RunWorkerPool(draw, elements); });
  if (!ran) return false;
  Spell(client.Draws());
  std::uint8_t const output[] = {static_cast<std::uint8_t>(window.Newest().value_or(0))};
  CycleInput const input{5, samples};
  bool const kept = trial.Done([&] { return recorder.Finished(input, spelled, output); }) &&
                    trial.Done([&] {
                      return recorder.RefusedInPass(input, 1, 2, 3);
                    });
  (void)window.Arrive(samples[0].value);
  window.Turn();
  return kept;
}

bool Opened(Trial& trial, Recorder& recorder) {
  DetEvent const events[] = {EventOf("x", 3)};
  std::int64_t const params[] = {1, 2};
  Spell({});
  return trial.Done([&] { return recorder.Header(DetProfile{1, 2, 3}, params, events); }) &&
         trial.Done([&] { return recorder.Register(); }) &&
         trial.Done([&] { return recorder.Discover(); }) &&
         trial.Done([&] { return recorder.Init(spelled); });
}

/// A whole run, recorded into `sink`.
Ended Run(Fixed& sink) {
  std::memset(elements, 0, sizeof elements);
  sink.size = 0;
  Trial trial;
  Source source;
  Recorder recorder(sink);
  std::optional<DeterministicClient> client;
  std::optional<EventWindow> window;
  auto const make = [&]() -> Result<void> {
    auto made = DeterministicClient::Create(source, 10, 3);
    if (!made) return made.Error();
    client.emplace(std::move(made).Value());
    return {};
  };
  auto const open = [&]() -> Result<void> {
    auto made = EventWindow::Create(3);
    if (!made) return made.Error();
    window.emplace(std::move(made).Value());
    return {};
  };
  bool whole = trial.Done(make) && trial.Done(open) && Opened(trial, recorder);
  for (int k = 0; whole && k < 5; ++k) {
    whole = trial.Done([&] { return client->WaitForActivation(); });
    if (whole && k > 2) whole = Cycle(trial, *client, recorder, *window);
  }
  whole = whole && trial.Done([&] { return recorder.Terminate(); });
  return {trial.wanting, whole};
}

Fixed undisturbed, tried;

bool SameRecord() {
  return undisturbed.size == tried.size &&
         std::memcmp(undisturbed.kept, tried.kept, tried.size) == 0;
}

/// Runs with the requests as given, and answers how it ended.
Ended RunWith(long grants, bool all, Fixed& sink) {
  granted = grants;
  all_after = all;
  requests = 0;
  Ended const ended = Run(sink);
  granted = -1;
  return ended;
}

long Requests() {
  CHECK(RunWith(-1, false, undisturbed).whole && undisturbed.size > 5000);
  return requests;
}

void OneRefused() {
  long const count = Requests();
  CHECK(count > 5);
  for (long k = 0; k < count; ++k) {
    Ended const ended = RunWith(k, false, tried);
    CHECK(ended.whole && ended.wanting == 1 && SameRecord());
  }
}

void AllLaterRefused() {
  long const count = Requests();
  for (long k = 0; k < count; ++k) {
    Ended const ended = RunWith(k, true, tried);
    CHECK(!ended.whole && ended.wanting == 3);
    CHECK(tried.size < undisturbed.size &&
          std::memcmp(undisturbed.kept, tried.kept, tried.size) == 0);
  }
  CHECK(RunWith(count, true, tried).whole && SameRecord());
}

/// Items of a file take memory only if they are longer than all before.
void ItemsOfOneLength() {
  granted = -1;
  for (std::size_t length = 60000; length < 300000; length += 7777) {
    FileInput file;
    CHECK(file.Open("/dev/zero").IsDone() && file.Fill(length).IsDone());
    long const before = requests;
    for (int item = 0; item < 40; ++item) {
      file.Drop(length);
      CHECK(file.Fill(length).IsDone() && file.Count() >= length);
    }
    CHECK(requests == before);
  }
}

}  // namespace

int main() {
  check::Test("memory: one request refused, and the call made again", OneRefused);
  check::Test("memory: all requests refused from one on", AllLaterRefused);
  check::Test("memory: items of one length in a file", ItemsOfOneLength);
  return check::Status();
}
