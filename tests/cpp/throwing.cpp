// Exceptions that leave the application's code end in an error value.
#include <atomic>
#include <chrono>
#include <new>
#include <stdexcept>
#include <thread>

#include "answers.h"
#include "check.h"
#include "reference.h"
#include "script.h"

using namespace det::exec;

namespace {

/// Adds its word to an element, but throws at those of `bad`.
class Thrower final : public WorkerRunnable<std::uint64_t> {
 public:
  explicit Thrower(std::vector<std::uint32_t> bad) : bad_(std::move(bad)) {}

  void Run(std::uint64_t& element, WorkerThread& thread) override {
    auto const number = static_cast<std::uint32_t>(element);
    element += thread.GetRandom() << 32;
    for (std::uint32_t bad : bad_) {
      if (number == bad) throw std::runtime_error("refused");
    }
  }

 private:
  std::vector<std::uint32_t> bad_;
};

std::uint64_t Added(std::uint32_t number, std::uint32_t cycle) {
  auto stream = reference::StreamOf(reference::Key(0, cycle, 0, number));
  return number + (stream.Next() << 32);
}

std::vector<std::uint64_t> Numbered(std::uint32_t count) {
  std::vector<std::uint64_t> elements(count);
  for (std::uint32_t i = 0; i < count; ++i) elements[i] = i;
  return elements;
}

/// Whether a pass reports the least bad element, ran those before it, and ran or left the others;
/// and whether the client goes on after it.
bool TellsTheLeast(std::vector<std::uint32_t> const& bad, std::uint32_t least, unsigned workers) {
  Script script({{}, {}, {}, {}, {}});
  DeterministicClient client = ClientInCycle(script, workers);
  std::vector<std::uint64_t> elements = Numbered(6000);
  Thrower thrower(bad);
  Result<void> const answer = client.RunWorkerPool(thrower, elements);
  if (!Refuses(answer, DeterministicErrc::kApplicationThrew, least)) return false;
  for (std::uint32_t i = 0; i < 6000; ++i) {
    bool const ran = elements[i] == Added(i, 1);
    if (!ran && (i <= least || elements[i] != i)) return false;
    // A single thread claims no block after the one in which it ended; of 6,000 elements
    // a block has 256.
    if (ran && workers == 1 && i / 256 > least / 256) return false;
  }
  Thrower harmless({});
  elements = Numbered(6000);
  if (!client.WaitForActivation() || !client.RunWorkerPool(harmless, elements)) return false;
  return elements[5999] == Added(5999, 2);
}

void OneElement() {
  for (std::uint32_t bad : {0u, 1u, 255u, 256u, 3000u, 5999u}) {
    for (unsigned workers : {1u, 2u, 8u, 64u}) CHECK(TellsTheLeast({bad}, bad, workers));
  }
}

void SeveralElements() {
  for (int round = 0; round < 20; ++round) {
    for (unsigned workers : {1u, 2u, 4u, 16u}) {
      CHECK(TellsTheLeast({5999, 130, 129, 700, 3000}, 129, workers));
      CHECK(TellsTheLeast({5900, 5600, 5700}, 5600, workers));
    }
  }
}

/// Throws at element 0 and at element 64, the first of the next of two blocks, in an order of one's
/// own.
class InOrder final : public WorkerRunnable<std::uint64_t> {
 public:
  explicit InOrder(std::uint64_t first) : first_(first) {}

  void Run(std::uint64_t& element, WorkerThread&) override {
    if (element % 64 != 0) return;
    bool const waits = element != first_;
    for (int tries = 0; waits && !thrown_ && tries < 5000; ++tries) {
      std::this_thread::sleep_for(std::chrono::milliseconds(2));
    }
    // A thread that waited goes on a little later, so that it notes its element after the first.
    if (waits) std::this_thread::sleep_for(std::chrono::milliseconds(50));
    thrown_ = true;
    throw std::runtime_error("refused");
  }

 private:
  std::uint64_t first_;
  std::atomic<bool> thrown_{false};
};

void TwoThreadsInEitherOrder() {
  for (std::uint64_t first : {std::uint64_t{0}, std::uint64_t{64}}) {
    Script script({});
    DeterministicClient client = ClientInCycle(script, 2);
    std::vector<std::uint64_t> elements = Numbered(128);
    InOrder runnable(first);
    Result<void> const answer = client.RunWorkerPool(runnable, elements);
    CHECK(Refuses(answer, DeterministicErrc::kApplicationThrew, 0));
  }
}

void EveryElement() {
  class All final : public WorkerRunnable<std::uint64_t> {
    void Run(std::uint64_t&, WorkerThread&) override { throw 7; }
  } all;
  for (unsigned workers : {1u, 4u, 64u}) {
    Script script({});
    DeterministicClient client = ClientInCycle(script, workers);
    std::vector<std::uint64_t> elements(65536);
    CHECK(Refuses(client.RunWorkerPool(all, elements), DeterministicErrc::kApplicationThrew));
  }
}

void WantOfMemoryInTheRunnable() {
  class Greedy final : public WorkerRunnable<std::uint64_t> {
    void Run(std::uint64_t& element, WorkerThread&) override {
      if (element == 77) throw std::bad_alloc();
    }
  } greedy;
  Script script({});
  DeterministicClient client = ClientInCycle(script, 2);
  std::vector<std::uint64_t> elements = Numbered(200);
  Result<void> const answer = client.RunWorkerPool(greedy, elements);
  CHECK(Refuses(answer, DeterministicErrc::kApplicationThrew, 77));
}

void TheContainer() {
  struct Broken {
    std::size_t size() const { return 3; }
    std::uint64_t* begin() { throw std::logic_error("broken"); }
    std::uint64_t* end() { return nullptr; }
  } broken;
  Script script({});
  DeterministicClient client = ClientInCycle(script, 2);
  Thrower harmless({});
  Result<void> const answer = client.RunWorkerPool(harmless, broken);
  CHECK(Refuses(answer, DeterministicErrc::kApplicationThrew));
}

void TheSource() {
  class Failing final : public ActivationSource {
    Activation Next() override {
      if (calls_++ == 2) throw std::runtime_error("no clock");
      return {};
    }
    int calls_ = 0;
  } source;
  DeterministicClient client = DeterministicClient::Create(source, 10).Value();
  CHECK(client.WaitForActivation() && client.WaitForActivation());
  CHECK(Refuses(client.WaitForActivation(), DeterministicErrc::kApplicationThrew));
  CHECK(client.WaitForActivation().Value() == ActivationReturnType::kInit);
}

}  // namespace

int main() {
  check::Test("throwing: one element, at several places", OneElement);
  check::Test("throwing: the least of several elements is reported", SeveralElements);
  check::Test("throwing: two threads throw in either order", TwoThreadsInEitherOrder);
  check::Test("throwing: every element", EveryElement);
  check::Test("throwing: want of memory in the runnable", WantOfMemoryInTheRunnable);
  check::Test("throwing: the container", TheContainer);
  check::Test("throwing: the source, and the client goes on after it", TheSource);
  return check::Status();
}
