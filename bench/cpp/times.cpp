// Times what the class costs beside the same in plain C++, in turns, and keeps the least of all
// rounds. Prints a line for each thing that is timed, parted by tabs: its name, and the nanoseconds
// of one in each of the forms of forms.h. Ends with 1 where the forms don't give the same words.
//
//     times ROUNDS
#include <algorithm>
#include <array>
#include <atomic>
#include <chrono>
#include <cstdio>
#include <cstdlib>
#include <memory>
#include <vector>

#include "forms.h"

namespace {

constexpr std::size_t kElements = 10000;
constexpr std::uint32_t kWords = 300000;
constexpr std::uint32_t kBlocks = 1024;

/// Something that is timed. Each call does the same work and keeps a sum of what it made.
class Timed {
 public:
  virtual ~Timed() = default;

  /// The nanoseconds of one.
  virtual double Once() = 0;

  std::uint64_t sum = 0;

 protected:
  template <typename Body>
  static double Took(double count, Body&& body) {
    auto const begun = std::chrono::steady_clock::now();
    body();
    std::chrono::duration<double, std::nano> const taken =
        std::chrono::steady_clock::now() - begun;
    return taken.count() / count;
  }
};

/// A word drawn, of a stream that goes on.
template <typename Form>
class Word final : public Timed {
 public:
  double Once() override {
    return Took(kWords, [this] {
      std::uint64_t words = 0;
      for (std::uint32_t k = 0; k < kWords; ++k) words ^= Form::Draw(thread_);
      sum += words;
    });
  }

 private:
  typename Form::Thread thread_ = Form::ThreadOf(3);
};

/// A block claimed, of a container of 1,024 blocks.
template <typename Form>
class Claim final : public Timed {
 public:
  double Once() override {
    return Took(kBlocks, [this] {
      std::atomic<std::uint32_t> claimed{0};
      std::uint32_t end = 0;
      while (Form::BlockOf(256 * kBlocks, claimed.fetch_add(1), end)) sum += end;
    });
  }
};

/// Draws one word, or 64.
template <typename Form, int kDraws>
class Draws final : public Form::template Runnable<std::uint64_t> {
 public:
  void Run(std::uint64_t& element, typename Form::Thread& thread) override {
    std::uint64_t mixed = element;
    for (int k = 0; k < kDraws; ++k) mixed = (mixed << 1 | mixed >> 63) ^ Form::Draw(thread);
    element = mixed;
  }
};

/// A pass over 10,000 elements, the only one of its cycle.
template <typename Form, int kDraws, unsigned kWorkers>
class Pass final : public Timed {
 public:
  double Once() override {
    return Took(1, [this] {
      pool_.BeginCycle();
      pool_.Pass(draws_, elements_);
      sum = elements_[0] ^ elements_[kElements - 1];
    });
  }

 private:
  typename Form::Pool pool_{kWorkers};
  Draws<Form, kDraws> draws_;
  std::vector<std::uint64_t> elements_ = std::vector<std::uint64_t>(kElements);
};

/// One thing in its four forms.
template <template <typename> class Thing>
std::array<std::unique_ptr<Timed>, 4> Forms() {
  return {std::make_unique<Thing<Proved>>(), std::make_unique<Thing<ProvedInline>>(),
          std::make_unique<Thing<Plain<plain::Called>>>(),
          std::make_unique<Thing<Plain<plain::Inlined>>>()};
}

/// Prints the line of a thing. False where its forms differ.
template <template <typename> class Thing>
bool Print(char const* name, int rounds, int times) {
  auto const forms = Forms<Thing>();
  std::array<double, 4> least{};
  least.fill(1e18);
  for (int round = 0; round < rounds; ++round) {
    for (std::size_t k = 0; k < forms.size(); ++k) {
      std::size_t const form = round % 2 == 0 ? k : forms.size() - 1 - k;
      for (int time = 0; time < times; ++time) {
        least[form] = std::min(least[form], forms[form]->Once());
      }
    }
  }
  std::printf("%s\t%.2f\t%.2f\t%.2f\t%.2f\n", name, least[0], least[1], least[2], least[3]);
  std::fflush(stdout);
  return std::all_of(forms.begin(), forms.end(),
                     [&](auto const& form) { return form->sum == forms[0]->sum; });
}

template <typename Form>
using Light1 = Pass<Form, 1, 1>;
template <typename Form>
using Light4 = Pass<Form, 1, 4>;
template <typename Form>
using Heavy1 = Pass<Form, 64, 1>;
template <typename Form>
using Heavy4 = Pass<Form, 64, 4>;

}  // namespace

int main(int count, char** words) {
  int const rounds = count > 1 ? std::atoi(words[1]) : 0;
  if (rounds < 1) return 2;
  bool const same = Print<Word>("a word drawn", rounds, 3) &&
                    Print<Claim>("a block claimed", rounds, 50) &&
                    Print<Light1>("a light pass, 1 worker", rounds, 10) &&
                    Print<Light4>("a light pass, 4 workers", rounds, 10) &&
                    Print<Heavy1>("a heavy pass, 1 worker", rounds, 3) &&
                    Print<Heavy4>("a heavy pass, 4 workers", rounds, 5);
  if (!same) std::fprintf(stderr, "the forms differ\n");
  return same ? 0 : 1;
}
