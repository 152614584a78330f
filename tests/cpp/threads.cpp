// Threads that can't be started, and threads that are left over. The test stands in for
// pthread_create, and refuses it from a number of calls on.
#include <dlfcn.h>
#include <pthread.h>

#include <algorithm>
#include <cerrno>
#include <chrono>
#include <fstream>
#include <string>
#include <thread>

#include "answers.h"
#include "check.h"
#include "script.h"

namespace {

int threads_left = 0;
int attempts = 0;
int alone = 0;  // how many threads the process has when no client is there

}  // namespace

extern "C" int pthread_create(pthread_t* thread, pthread_attr_t const* attributes,
                              void* (*start)(void*), void* argument) {
  using Create = int (*)(pthread_t*, pthread_attr_t const*, void* (*)(void*), void*);
  static auto const create = reinterpret_cast<Create>(dlsym(RTLD_NEXT, "pthread_create"));
  ++attempts;
  if (threads_left == 0) return EAGAIN;
  --threads_left;
  return create(thread, attributes, start, argument);
}

using namespace det::exec;

namespace {

/// How many threads this process has, by /proc.
int Threads() {
  std::ifstream status("/proc/self/status");
  std::string word;
  while (status >> word) {
    if (word == "Threads:") {
      int count = 0;
      status >> count;
      return count;
    }
  }
  return -1;
}

/// Whether the process comes to have this many threads. A joined one counts a little longer.
bool ThreadsAre(int wanted) {
  for (int tries = 0; tries < 1000 && Threads() != wanted; ++tries) {
    std::this_thread::sleep_for(std::chrono::milliseconds(2));
  }
  return Threads() == wanted;
}

/// The least of many counts, which leaves out a joined thread that counts a little longer.
int LeastThreads() {
  int least = Threads();
  for (int tries = 0; tries < 100; ++tries) {
    std::this_thread::sleep_for(std::chrono::milliseconds(2));
    least = std::min(least, Threads());
  }
  return least;
}

class Draw final : public WorkerRunnable<std::uint64_t> {
  void Run(std::uint64_t& element, WorkerThread& thread) override { element = thread.GetRandom(); }
};

std::vector<std::uint64_t> Drawn(DeterministicClient& client) {
  for (int k = 0; k < 4; ++k) (void)client.WaitForActivation();
  std::vector<std::uint64_t> elements(1000);
  Draw draw;
  CHECK(client.RunWorkerPool(draw, elements));
  return elements;
}

void Refusing() {
  for (int started : {0, 1, 2}) {
    threads_left = started;
    Script script({});
    auto const client = DeterministicClient::Create(script, 10, 4);
    CHECK(Refuses(client, DeterministicErrc::kThreadNotStarted));
    CHECK(ThreadsAre(alone));
  }
}

void FewerWorkers() {
  std::vector<std::uint64_t> whole;
  for (int started : {3, 2, 1, 0}) {
    threads_left = started;
    Script script({{}, {}, {}, {}});
    auto client = DeterministicClient::Create(script, 10, 4, MissingThreads::kAllow);
    CHECK(client && client.Value().Workers() == static_cast<unsigned>(started) + 1);
    std::vector<std::uint64_t> const elements = Drawn(client.Value());
    if (started == 3) whole = elements;
    CHECK(elements == whole);
  }
}

void TheThreadsOfAClient() {
  threads_left = 63;
  {
    Script script({{}, {}, {}, {}});
    DeterministicClient client = DeterministicClient::Create(script, 10, 64).Value();
    CHECK(ThreadsAre(alone + 63));
    (void)Drawn(client);
    CHECK(ThreadsAre(alone + 63));  // they are kept, and no more are started
  }
  CHECK(ThreadsAre(alone));
}

void ClientsThatDoNothing() {
  threads_left = 1000;
  for (int k = 0; k < 200; ++k) {
    Script script({});
    CHECK(DeterministicClient::Create(script, 10, 4).HasValue());
  }
}

void OneWorker() {
  attempts = 0;
  Script script({{}, {}, {}, {}});
  DeterministicClient client = DeterministicClient::Create(script, 10, 1).Value();
  (void)Drawn(client);
  CHECK(attempts == 0);
}

}  // namespace

int main() {
  threads_left = 1;  // a sanitizer starts a thread of its own with the first one
  std::thread([] {}).join();
  alone = LeastThreads();
  check::Test("threads: one that isn't started is reported, and none is left", Refusing);
  check::Test("threads: fewer give the same elements, where they are allowed", FewerWorkers);
  check::Test("threads: a client's are kept, and end with it", TheThreadsOfAClient);
  check::Test("threads: 200 clients come and go without a pass", ClientsThatDoNothing);
  check::Test("threads: one worker starts none", OneWorker);
  return check::Status();
}
