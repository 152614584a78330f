// The worker pool of a deterministic client in plain C++: the same interface as the class under
// measure, threads that are kept, blocks that are claimed by whoever comes, exact counts of draws,
// and an exception of a runnable told by its element.
#ifndef BENCH_CPP_PLAIN_CLIENT_H
#define BENCH_CPP_PLAIN_CLIENT_H

#include <algorithm>
#include <atomic>
#include <condition_variable>
#include <cstddef>
#include <functional>
#include <mutex>
#include <optional>
#include <thread>
#include <vector>

#include "plain_words.h"

namespace plain {

template <typename Words>
class WorkerThread {
 public:
  WorkerThread(PassKeys const& keys, std::uint32_t element) {
    Words::Begin(stream_, keys, element);
  }
  std::uint64_t GetRandom() { return Words::Next(stream_); }
  std::uint64_t Draws() const { return stream_.draws; }

 private:
  Stream stream_;
};

template <typename Words, typename ValueType>
class WorkerRunnable {
 public:
  virtual ~WorkerRunnable() = default;
  virtual void Run(ValueType& element, WorkerThread<Words>& thread) = 0;
};

/// Threads that wait for the next job.
class Threads {
 public:
  explicit Threads(unsigned count) {
    for (unsigned k = 0; k < count; ++k) threads_.emplace_back([this] { Loop(); });
  }

  ~Threads() {
    {
      std::lock_guard<std::mutex> lock(mutex_);
      ending_ = true;
    }
    called_.notify_all();
    for (auto& thread : threads_) thread.join();
  }

  unsigned Count() const { return static_cast<unsigned>(threads_.size()); }

  void Do(std::function<void()> const& job, unsigned helpers) {
    {
      std::lock_guard<std::mutex> lock(mutex_);
      job_ = &job;
      open_ = helpers;
    }
    for (unsigned k = 0; k < helpers; ++k) called_.notify_one();
    job();
    std::unique_lock<std::mutex> lock(mutex_);
    open_ = 0;
    through_.wait(lock, [this] { return busy_ == 0; });
  }

 private:
  void Loop() {
    std::unique_lock<std::mutex> lock(mutex_);
    while (true) {
      called_.wait(lock, [this] { return ending_ || open_ > 0; });
      if (ending_) return;
      --open_;
      ++busy_;
      auto const* job = job_;
      lock.unlock();
      (*job)();
      lock.lock();
      if (--busy_ == 0) through_.notify_one();
    }
  }

  std::mutex mutex_;
  std::condition_variable called_, through_;
  std::function<void()> const* job_ = nullptr;
  unsigned open_ = 0, busy_ = 0;
  bool ending_ = false;
  std::vector<std::thread> threads_;
};

template <typename Words>
class Client {
 public:
  explicit Client(unsigned workers) : threads_(workers - 1) {}

  void BeginCycle(std::uint32_t cycle) {
    cycle_ = cycle;
    pass_ = 0;
    draws_.clear();
  }

  std::vector<std::uint32_t> const& Draws() const { return draws_; }

  /// The least element that threw, where one did.
  template <typename ValueType, typename Container>
  std::optional<std::uint32_t> RunWorkerPool(WorkerRunnable<Words, ValueType>& runnable,
                                             Container& container) {
    auto const count = static_cast<std::uint32_t>(container.size());
    if (draws_.size() < count) draws_.resize(count);
    PassKeys const keys = Words::KeysOf(0, cycle_, pass_++);
    std::atomic<std::uint32_t> next{0}, thrown{UINT32_MAX};
    auto const work = [&] {
      Block block;
      while (thrown == UINT32_MAX && Words::BlockOf(count, next++, block)) {
        RunBlock(runnable, container, keys, block, thrown);
      }
    };
    unsigned const blocks = Words::BlockCount(count);
    unsigned const helpers = std::min(threads_.Count(), blocks > 0 ? blocks - 1 : 0);
    if (helpers == 0) {
      work();
    } else {
      threads_.Do(work, helpers);
    }
    if (thrown == UINT32_MAX) return std::nullopt;
    return thrown;
  }

 private:
  template <typename Runnable, typename Container>
  void RunBlock(Runnable& runnable, Container& container, PassKeys const& keys, Block block,
                std::atomic<std::uint32_t>& thrown) {
    std::uint32_t i = block.begin;
    try {
      for (; i < block.end; ++i) {
        WorkerThread<Words> thread(keys, i);
        runnable.Run(container[i], thread);
        draws_[i] += static_cast<std::uint32_t>(thread.Draws());
      }
    } catch (...) {
      std::uint32_t least = thrown;
      while (i < least && !thrown.compare_exchange_weak(least, i)) {
      }
    }
  }

  Threads threads_;
  std::uint32_t cycle_ = 0;
  std::uint8_t pass_ = 0;
  std::vector<std::uint32_t> draws_;
};

}  // namespace plain

#endif
