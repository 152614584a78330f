// The worker threads of a client: their attributes, and how they wait.
#ifndef DET_EXEC_THREADS_H
#define DET_EXEC_THREADS_H

#include <pthread.h>
#include <sched.h>

#include <atomic>
#include <chrono>
#include <cstddef>
#include <cstdint>
#include <memory>
#include <new>
#include <optional>

#include "det/exec/version.h"

namespace det::exec {
inline namespace DET_EXEC_ABI {

/// Attributes of worker threads. What isn't set is the system's choice: a thread then inherits
/// policy, priority and processors of the thread that makes the client.
struct ThreadOptions {
  /// SCHED_FIFO, SCHED_RR or SCHED_OTHER, with its priority.
  struct Schedule {
    int policy = SCHED_OTHER;
    int priority = 0;
  };
  std::optional<Schedule> schedule;
  /// Bit k allows processor k. 0 sets none.
  std::uint64_t processors = 0;
  /// 0 leaves the system's size.
  std::size_t stack_bytes = 0;
  /// Workers 1, 2, .. are named `name-1`, `name-2`, .. The first 12 bytes of the name are used.
  char const* name = nullptr;
  /// Each worker thread calls `started` before it waits for its first pass, and `ending` as its
  /// last call. An application can lock the stack in them, or inform a monitor. Workers count from
  /// 1.
  void (*started)(unsigned worker, void* context) noexcept = nullptr;
  void (*ending)(unsigned worker, void* context) noexcept = nullptr;
  void* context = nullptr;
  /// How long a thread that has nothing to do looks for work, in microseconds, before it sleeps. A
  /// thread that sleeps needs longer to begin. While it looks it yields its processor to threads of
  /// the same priority only, so 0 is better under a real-time policy.
  std::uint32_t spin_microseconds = 200;
};

namespace internal {

/// Work that several threads do together, in blocks. Each calls `RunBlocks`, which returns once no
/// block is left to begin.
class SharedWork {
 public:
  virtual void RunBlocks() noexcept = 0;

 protected:
  ~SharedWork() = default;
};

/// A mutex whose owner inherits the priority of the threads that wait for it.
class Mutex {
 public:
  Mutex() noexcept {
    pthread_mutexattr_t attributes;
    pthread_mutexattr_init(&attributes);
    pthread_mutexattr_setprotocol(&attributes, PTHREAD_PRIO_INHERIT);
    pthread_mutex_init(&mutex_, &attributes);
    pthread_mutexattr_destroy(&attributes);
  }
  Mutex(Mutex const&) = delete;
  Mutex& operator=(Mutex const&) = delete;
  ~Mutex() { pthread_mutex_destroy(&mutex_); }

  void Lock() noexcept { pthread_mutex_lock(&mutex_); }
  void Unlock() noexcept { pthread_mutex_unlock(&mutex_); }
  pthread_mutex_t* Native() noexcept { return &mutex_; }

 private:
  pthread_mutex_t mutex_;
};

class Condition {
 public:
  Condition() noexcept { pthread_cond_init(&condition_, nullptr); }
  Condition(Condition const&) = delete;
  Condition& operator=(Condition const&) = delete;
  ~Condition() { pthread_cond_destroy(&condition_); }

  void Wait(Mutex& mutex) noexcept { pthread_cond_wait(&condition_, mutex.Native()); }
  void Signal() noexcept { pthread_cond_signal(&condition_); }

 private:
  pthread_cond_t condition_;
};

/// Sets the attributes of threads. False if the system refuses one.
inline bool SetAttributes(ThreadOptions const& options, pthread_attr_t& attributes) noexcept {
  if (options.stack_bytes != 0 &&
      pthread_attr_setstacksize(&attributes, options.stack_bytes) != 0) {
    return false;
  }
  if (options.schedule) {
    sched_param parameter{};
    parameter.sched_priority = options.schedule->priority;
    if (pthread_attr_setinheritsched(&attributes, PTHREAD_EXPLICIT_SCHED) != 0 ||
        pthread_attr_setschedpolicy(&attributes, options.schedule->policy) != 0 ||
        pthread_attr_setschedparam(&attributes, &parameter) != 0) {
      return false;
    }
  }
#if defined(__linux__)
  if (options.processors != 0) {
    cpu_set_t set;
    CPU_ZERO(&set);
    for (unsigned k = 0; k < 64; ++k) {
      if ((options.processors >> k & 1) != 0) CPU_SET(k, &set);
    }
    return pthread_attr_setaffinity_np(&attributes, sizeof set, &set) == 0;
  }
#endif
  return true;
}

/// Names a worker thread `name-NUMBER`, of at most 15 bytes, which is the most that Linux takes.
inline void SetName(pthread_t thread, char const* name, unsigned number) noexcept {
#if defined(__linux__)
  if (name == nullptr) return;
  char text[16] = {};
  std::size_t length = 0;
  while (length < 12 && name[length] != '\0') {
    text[length] = name[length];
    ++length;
  }
  text[length++] = '-';
  if (number >= 10) text[length++] = static_cast<char>('0' + number / 10);
  text[length] = static_cast<char>('0' + number % 10);
  (void)pthread_setname_np(thread, text);
#else
  (void)thread;
  (void)name;
  (void)number;
#endif
}

/// Looks again and again whether something is so, for a limited time. Between two looks it yields
/// the processor.
class Spin {
 public:
  explicit Spin(std::uint32_t microseconds) noexcept : length_(microseconds) {}

  template <typename Condition>
  bool Until(Condition const& condition) const noexcept {
    if (condition()) return true;
    if (length_.count() == 0) return false;
    auto const end = Clock::now() + length_;
    do {
      for (int looks = 0; looks < kLooks; ++looks) {
        if (condition()) return true;
      }
      sched_yield();
    } while (Clock::now() < end);
    return false;
  }

 private:
  using Clock = std::chrono::steady_clock;
  static constexpr int kLooks = 64;

  std::chrono::microseconds length_;
};

/// How many threads are still wanted for a piece of work, and how many work on it. Both are one
/// atomic number, so a thread joins the work or finds it closed.
class WorkCount {
 public:
  void Open(std::uint32_t helpers) noexcept { both_.store(helpers * kWanted); }

  /// No further thread joins. Returns whether none is working.
  bool Close() noexcept { return (both_.fetch_and(kWanted - 1) & (kWanted - 1)) == 0; }

  bool IsOpen() const noexcept { return both_.load() >= kWanted; }
  bool IsIdle() const noexcept { return both_.load() == 0; }

  bool Join() noexcept {
    std::uint32_t both = both_.load();
    while (both >= kWanted) {
      if (both_.compare_exchange_weak(both, both - kWanted + 1)) return true;
    }
    return false;
  }

  /// Returns whether this was the last one of a work that is closed.
  bool Leave() noexcept { return both_.fetch_sub(1) == 1; }

 private:
  static constexpr std::uint32_t kWanted = 1 << 16;

  std::atomic<std::uint32_t> both_{0};
};

/// Threads that are kept. Between two pieces of work they look for the next one, and then sleep.
class Crew {
 public:
  Crew() = default;
  Crew(Crew const&) = delete;
  Crew& operator=(Crew const&) = delete;
  ~Crew() { Stop(); }

  enum class Started { kAll, kFewer, kNoMemory, kBadOptions };

  /// Starts `count` threads, or fewer if the system starts no more. It is called once.
  Started Start(std::size_t count, ThreadOptions const& options) noexcept {
    if (count == 0) return Started::kAll;
    members_.reset(new (std::nothrow) Member[count]);
    if (!members_) return Started::kNoMemory;
    options_ = options;
    pthread_attr_t attributes;
    if (pthread_attr_init(&attributes) != 0) return Started::kNoMemory;
    Started const answer =
        SetAttributes(options, attributes) ? StartEach(count, attributes) : Started::kBadOptions;
    pthread_attr_destroy(&attributes);
    return answer;
  }

  std::size_t Threads() const noexcept { return count_; }

  /// Does a piece of work on this thread and on up to `helpers` others. Returns once all threads
  /// that began it have ended it. A thread that comes too late does nothing.
  void Do(SharedWork& work, std::size_t helpers) noexcept {
    work_ = &work;
    open_.Open(static_cast<std::uint32_t>(helpers));
    if (sleeping_.load() != 0) Wake(helpers);
    work.RunBlocks();
    if (open_.Close()) return;
    auto const is_idle = [this] { return open_.IsIdle(); };
    if (Spin(options_.spin_microseconds).Until(is_idle)) return;
    mutex_.Lock();
    while (!is_idle()) idle_.Wait(mutex_);
    mutex_.Unlock();
  }

 private:
  struct Member {
    Crew* crew = nullptr;
    unsigned number = 0;
    pthread_t thread{};
  };

  Started StartEach(std::size_t count, pthread_attr_t const& attributes) noexcept {
    while (count_ < count) {
      Member& member = members_[count_];
      member = Member{this, static_cast<unsigned>(count_) + 1, {}};
      if (pthread_create(&member.thread, &attributes, &Crew::Run, &member) != 0) {
        return Started::kFewer;
      }
      SetName(member.thread, options_.name, member.number);
      ++count_;
    }
    return Started::kAll;
  }

  static void* Run(void* given) {
    // The thread that starts this one still writes `thread` of the member.
    Member const& member = *static_cast<Member const*>(given);
    unsigned const number = member.number;
    Crew& crew = *member.crew;
    ThreadOptions const& options = crew.options_;
    if (options.started != nullptr) options.started(number, options.context);
    crew.Serve();
    if (options.ending != nullptr) options.ending(number, options.context);
    return nullptr;
  }

  void Serve() noexcept {
    while (WaitForWork()) {
      if (!open_.Join()) continue;
      work_->RunBlocks();
      if (!open_.Leave()) continue;
      mutex_.Lock();
      idle_.Signal();
      mutex_.Unlock();
    }
  }

  /// Returns once work is open, or false once the crew is stopped.
  bool WaitForWork() noexcept {
    auto const has_news = [this] { return stopping_.load() || open_.IsOpen(); };
    if (!Spin(options_.spin_microseconds).Until(has_news)) {
      mutex_.Lock();
      ++sleeping_;
      while (!has_news()) wake_.Wait(mutex_);
      --sleeping_;
      mutex_.Unlock();
    }
    return !stopping_.load();
  }

  /// A thread that counts as sleeping has the mutex until it waits, so it misses no signal.
  void Wake(std::size_t threads) noexcept {
    mutex_.Lock();
    mutex_.Unlock();
    for (std::size_t k = 0; k < threads; ++k) wake_.Signal();
  }

  void Stop() noexcept {
    stopping_.store(true);
    Wake(count_);
    for (std::size_t k = 0; k < count_; ++k) pthread_join(members_[k].thread, nullptr);
  }

  Mutex mutex_;
  Condition wake_, idle_;
  SharedWork* work_ = nullptr;
  WorkCount open_;
  std::atomic<std::uint32_t> sleeping_{0};
  std::atomic<bool> stopping_{false};
  std::size_t count_ = 0;
  ThreadOptions options_;
  std::unique_ptr<Member[]> members_;
};

}  // namespace internal
}  // namespace DET_EXEC_ABI
}  // namespace det::exec

#endif
