// Parts of the headers, one by one: results, thread options, the sink with a thread, numbers.
#include <pthread.h>

#include <atomic>
#include <cstring>
#include <string>
#include <vector>

#include "answers.h"
#include "check.h"
#include "det/exec/async_sink.h"
#include "det/exec/record_sink.h"
#include "det/exec/spelling.h"
#include "script.h"
#include "sinks.h"

using namespace det::exec;

namespace {

std::atomic<int> started{0}, ended{0};
std::atomic<bool> is_as_asked{true};

void CheckAtStart(unsigned worker, void* context) noexcept {
  started += static_cast<int>(worker) + *static_cast<int*>(context);
  pthread_attr_t attributes;
  std::size_t stack = 0;
  cpu_set_t set;
  pthread_getattr_np(pthread_self(), &attributes);
  pthread_attr_getstacksize(&attributes, &stack);
  pthread_attr_destroy(&attributes);
  pthread_getaffinity_np(pthread_self(), sizeof set, &set);
  if (stack < 1024 * 1024 || CPU_COUNT(&set) != 1) is_as_asked = false;
}

void CheckAtEnd(unsigned, void*) noexcept {
  char name[16] = {};
  pthread_getname_np(pthread_self(), name, sizeof name);
  if (std::strncmp(name, "crew-", 5) != 0) is_as_asked = false;
  ++ended;
}

void WorkersAsAsked() {
  Script script({});
  int context = 100;
  ThreadOptions options;
  options.name = "crew";
  options.stack_bytes = 1024 * 1024;
  options.processors = 1;
  options.started = &CheckAtStart;
  options.ending = &CheckAtEnd;
  options.context = &context;
  { CHECK(DeterministicClient::Create(script, 10, 4, MissingThreads::kRefuse, options)); }
  CHECK(started == 306 && ended == 3 && is_as_asked);
}

void RefusedOptions() {
  Script script({});
  ThreadOptions options;
  options.stack_bytes = 1;
  CHECK(Refuses(DeterministicClient::Create(script, 10, 2, MissingThreads::kRefuse, options),
                DeterministicErrc::kBadThreadOptions));
  options.stack_bytes = 0;
  options.schedule = ThreadOptions::Schedule{SCHED_FIFO, 10};
  // Only a privileged process may have such threads.
  auto const made = DeterministicClient::Create(script, 10, 2, MissingThreads::kRefuse, options);
  CHECK(made || Refuses(made, DeterministicErrc::kThreadNotStarted));
}

void MembersOfResults() {
  Result<int> const good(3), bad(DeterministicErrc::kNoMemory);
  CHECK(*good == 3 && good.ValueOr(4) == 3 && bad.ValueOr(4) == 4 && good.ValueOrThrow() == 3);
  CHECK(bad.CheckError(DeterministicErrc::kNoMemory) && bad.Err() && !good.Err());
  CHECK(bad.Resolve([](auto error) { return static_cast<int>(error.code); }) == 4);
  CHECK(*good.Bind([](int value) { return value + 1; }) == 4);
  CHECK(good.Bind([&](int) { return bad; }).ErrorOr({}).code == DeterministicErrc::kNoMemory);
  bool thrown = false;
  try {
    (void)bad.ValueOrThrow();
  } catch (DeterministicFault const& fault) {
    thrown = std::string(fault.what()) == "out of memory";
  }
  CHECK(thrown);
  Result<std::string> text(std::string("abc"));
  CHECK(text->size() == 3);
}

void AllBytesGoOn() {
  KeptBytes kept;
  AsyncSink sink(kept);
  CHECK(sink.Start(100000));
  std::vector<std::uint8_t> all;
  for (std::size_t k = 0; k < 3000; ++k) {
    std::vector<std::uint8_t> const part(k % 97, static_cast<std::uint8_t>(k));
    while (!sink.Write(part.data(), part.size())) {
    }
    all.insert(all.end(), part.begin(), part.end());
  }
  CHECK(sink.Finish() && all == kept.kept);
}

/// Takes nothing.
class Broken final : public RecordSink {
 public:
  bool Write(std::uint8_t const*, std::size_t) noexcept override { return false; }
};

void FullAndFailed() {
  std::vector<std::uint8_t> const bytes(11);
  KeptBytes kept;
  AsyncSink small(kept);
  CHECK(!small.Write(bytes.data(), 1));
  CHECK(small.Start(10) && !small.Write(bytes.data(), 11) && small.Write(bytes.data(), 10));
  CHECK(small.Finish() && kept.kept.size() == 10 && small.Most() == 10);
  Broken broken;
  AsyncSink failing(broken);
  CHECK(failing.Start(10) && failing.Write(bytes.data(), 5) && !failing.Finish());
  AsyncSink empty(kept);
  CHECK(Refuses(empty.Start(0), DeterministicErrc::kNoMemory));
}

void NumbersReadAgain() {
  DetElement element{};
  Spelling(element).U8(1).U16(2).U32(3).U64(4).I64(-5);
  Reading reading(element);
  CHECK(reading.U8() == 1 && reading.U16() == 2 && reading.U32() == 3 && reading.U64() == 4);
  CHECK(reading.I64() == -5 && reading.Good() && reading.U8() == 0 && !reading.Good());
}

}  // namespace

int main() {
  check::Test("parts: workers have their name, stack, processors and hooks", WorkersAsAsked);
  check::Test("parts: attributes that the system refuses", RefusedOptions);
  check::Test("parts: a result has the members of ara::core::Result", MembersOfResults);
  check::Test("parts: a sink with a thread gives all bytes on", AllBytesGoOn);
  check::Test("parts: a ring without room, and a sink that fails", FullAndFailed);
  check::Test("parts: numbers are read as they were written", NumbersReadAgain);
  return check::Status();
}
