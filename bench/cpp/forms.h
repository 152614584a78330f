// The four forms that are timed side by side, behind one interface.
#ifndef BENCH_CPP_FORMS_H
#define BENCH_CPP_FORMS_H

#include <cstdint>
#include <optional>
#include <vector>

#include "det/exec/deterministic_client.h"
#include "plain_client.h"

/// Goes on for ever.
class Endless final : public det::exec::ActivationSource {
 public:
  det::exec::Activation Next() override { return {}; }
};

/// The class under measure, by its proved calls.
struct Proved {
  using Thread = det::exec::WorkerThread;
  template <typename ValueType>
  using Runnable = det::exec::WorkerRunnable<ValueType>;

  static Thread ThreadOf(std::uint32_t element) {
    DetPassKeys keys;
    det_pass_keys(&keys, 0, 1, 0);
    return Thread(keys, element);
  }

  static std::uint64_t Draw(Thread& thread) { return thread.GetRandom(); }

  static bool BlockOf(std::uint32_t count, std::uint32_t number, std::uint32_t& end) {
    std::uint32_t begin = 0;
    return det_block(count, number, &begin, &end);
  }

  class Pool {
   public:
    explicit Pool(unsigned workers)
        : client_(det::exec::DeterministicClient::Create(source_, 1, workers).Value()) {
      for (int k = 0; k < 3; ++k) (void)client_.WaitForActivation();
    }

    void BeginCycle() { (void)client_.WaitForActivation(); }

    template <typename Work>
    void Pass(Work& work, std::vector<std::uint64_t>& elements) {
      (void)client_.RunWorkerPool(work, elements);
    }

   private:
    Endless source_;
    det::exec::DeterministicClient client_;
  };
};

/// The class under measure, with words that are inlined.
struct ProvedInline : Proved {
  static std::uint64_t Draw(Thread& thread) { return thread.GetRandomInline(); }
};

/// A plain library.
template <typename Words>
struct Plain {
  using Thread = plain::WorkerThread<Words>;
  template <typename ValueType>
  using Runnable = plain::WorkerRunnable<Words, ValueType>;

  static Thread ThreadOf(std::uint32_t element) {
    return Thread(Words::KeysOf(0, 1, 0), element);
  }

  static std::uint64_t Draw(Thread& thread) { return thread.GetRandom(); }

  static bool BlockOf(std::uint32_t count, std::uint32_t number, std::uint32_t& end) {
    plain::Block block;
    if (!Words::BlockOf(count, number, block)) return false;
    end = block.end;
    return true;
  }

  class Pool {
   public:
    explicit Pool(unsigned workers) : client_(workers) {}

    void BeginCycle() { client_.BeginCycle(++cycle_); }

    template <typename Work>
    void Pass(Work& work, std::vector<std::uint64_t>& elements) {
      (void)client_.RunWorkerPool(work, elements);
    }

   private:
    plain::Client<Words> client_;
    std::uint32_t cycle_ = 0;
  };
};

#endif
