// Passes over containers of every size and kind, with every number of workers.
#include <algorithm>
#include <array>
#include <deque>
#include <forward_list>
#include <list>
#include <memory>

#include "answers.h"
#include "check.h"
#include "reference.h"
#include "script.h"

using namespace det::exec;

namespace {

constexpr std::size_t kCounts[] = {0, 1, 63, 64, 65, 4096, 4097, 65536};
constexpr std::uint64_t kSeed = 11;

/// How many words an element draws: 1 to 5, by its value.
std::uint64_t WordsOf(std::uint64_t value) { return 1 + value % 5; }

/// Mixes an element with the words that it draws.
class Stir final : public WorkerRunnable<std::uint64_t> {
 public:
  void Run(std::uint64_t& element, WorkerThread& thread) override {
    for (std::uint64_t left = WordsOf(element); left != 0; --left) {
      element = element * 3 ^ thread.GetRandom();
    }
  }
};

/// The elements and their draws after passes of cycle 1, by one loop over the published generators.
struct Wanted {
  std::vector<std::uint64_t> elements;
  std::vector<std::uint32_t> draws;
};

Wanted Stirred(std::size_t count, std::uint8_t passes) {
  Wanted wanted{std::vector<std::uint64_t>(count), std::vector<std::uint32_t>(count)};
  for (std::uint32_t i = 0; i < count; ++i) wanted.elements[i] = i;
  for (std::uint8_t pass = 0; pass < passes; ++pass) {
    for (std::uint32_t i = 0; i < count; ++i) {
      std::uint64_t& element = wanted.elements[i];
      std::uint64_t const words = WordsOf(element);
      auto stream = reference::StreamOf(reference::Key(kSeed, 1, pass, i));
      for (std::uint64_t k = 0; k < words; ++k) element = element * 3 ^ stream.Next();
      wanted.draws[i] += static_cast<std::uint32_t>(words);
    }
  }
  return wanted;
}

template <typename Container>
void Number(Container& container) {
  std::uint64_t number = 0;
  for (auto& element : container) element = number++;
}

bool AreDraws(DeterministicClient const& client, std::vector<std::uint32_t> const& wanted) {
  auto const draws = client.Draws();
  return std::equal(draws.begin(), draws.end(), wanted.begin(), wanted.end());
}

/// Whether passes over a container give what one loop gives.
template <typename Container>
bool StirsAs(Wanted const& wanted, Container& container, unsigned workers, int passes) {
  Script script({{}, {}, {}, {}});
  DeterministicClient client = ClientInCycle(script, workers);
  client.SetRandomSeed(kSeed);
  Number(container);
  Stir stir;
  for (int pass = 0; pass < passes; ++pass) {
    if (!client.RunWorkerPool(stir, container)) return false;
  }
  return std::equal(std::begin(container), std::end(container), wanted.elements.begin(),
                    wanted.elements.end()) &&
         AreDraws(client, wanted.draws);
}

template <typename Container>
void OverContainer(std::initializer_list<unsigned> numbers_of_workers) {
  for (std::size_t count : kCounts) {
    Wanted const wanted = Stirred(count, 2);
    Container container(count);
    for (unsigned workers : numbers_of_workers) {
      CHECK(StirsAs(wanted, container, workers, 2));
    }
  }
}

template <std::size_t kCount>
void OverArrays() {
  Wanted const wanted = Stirred(kCount, 2);
  auto made = std::make_unique<std::array<std::uint64_t, kCount>>();
  for (unsigned workers : {1u, 4u}) CHECK(StirsAs(wanted, *made, workers, 2));
}

/// A container with only `begin`, `end`, `*` and `++`, which is what the standard asks for.
class Ring {
 public:
  struct At {
    std::uint64_t* place;
    std::uint64_t& operator*() const { return *place; }
    At& operator++() {
      ++place;
      return *this;
    }
    bool operator!=(At other) const { return place != other.place; }
  };

  explicit Ring(std::size_t count) : all_(count) {}
  At begin() { return {all_.data()}; }
  At end() { return {all_.data() + all_.size()}; }
  std::vector<std::uint64_t> const& All() const { return all_; }

 private:
  std::vector<std::uint64_t> all_;
};

void OverARing() {
  Script script({{}, {}, {}, {}});
  DeterministicClient client = ClientInCycle(script, 3);
  client.SetRandomSeed(kSeed);
  Ring ring(1000);
  Number(ring);
  Stir stir;
  CHECK(client.Reserve(1000, false) && client.RunWorkerPool(stir, ring));
  Wanted const wanted = Stirred(1000, 1);
  CHECK(ring.All() == wanted.elements && AreDraws(client, wanted.draws));
  Ring many(65537);
  CHECK(Refuses(client.RunWorkerPool(stir, many), DeterministicErrc::kTooManyElements));
}

/// A pass whose draws aren't counted is a pass: the next one draws other numbers.
void UncountedDraws() {
  Script script({{}, {}, {}, {}});
  DeterministicClient client = ClientInCycle(script, 2);
  client.SetRandomSeed(kSeed);
  std::vector<std::uint64_t> elements(200), others(300);
  Stir stir;
  CHECK(client.RunWorkerPool(stir, others, DrawCount::kNone) && client.Draws().empty());
  CHECK(client.RunWorkerPool(stir, elements) && client.Draws().size() == 200);
  auto stream = reference::StreamOf(reference::Key(kSeed, 1, 1, 7));
  CHECK(elements[7] == stream.Next() && client.Draws()[7] == 1);
}

/// The least element that refuses is reported for each number of workers, and all are run.
void RefusingElements() {
  class Refuser final : public WorkerRunnable<std::uint64_t> {
    void Run(std::uint64_t& element, WorkerThread& thread) override {
      element += 1;
      if (thread.Element() % 1000 == 777) thread.Refuse(thread.Element() + 5);
    }
  } refuser;
  for (unsigned workers : {1u, 2u, 4u, 16u}) {
    Script script({{}, {}, {}, {}});
    DeterministicClient client = ClientInCycle(script, workers);
    std::vector<std::uint64_t> elements(5000);
    CHECK(client.RunWorkerPool(refuser, elements) && client.Refused());
    CHECK(client.Refused()->element == 777 && client.Refused()->code == 782);
    CHECK(std::count(elements.begin(), elements.end(), 1) == 5000);
    Stir stir;
    CHECK(client.RunWorkerPool(stir, elements) && !client.Refused());
  }
}

void OverAnArrayOfC() {
  std::uint64_t elements[65];
  CHECK(StirsAs(Stirred(65, 3), elements, 2, 3));
}

void EveryNumberOfWorkers() {
  // 4,096 elements are 64 blocks, so that there is one for each worker.
  Wanted const wanted = Stirred(4096, 1);
  std::vector<std::uint64_t> elements(4096);
  for (unsigned workers = 1; workers <= 64; ++workers) {
    CHECK(StirsAs(wanted, elements, workers, 1));
  }
}

void EightPasses() {
  std::vector<std::uint64_t> elements(300);
  Wanted const wanted = Stirred(300, 8);
  Script script({{}, {}, {}, {}, {}});
  DeterministicClient client = ClientInCycle(script, 3);
  client.SetRandomSeed(kSeed);
  Number(elements);
  Stir stir;
  for (int pass = 0; pass < 8; ++pass) CHECK(client.RunWorkerPool(stir, elements));
  CHECK(Refuses(client.RunWorkerPool(stir, elements), DeterministicErrc::kTooManyPasses));
  CHECK(elements == wanted.elements && AreDraws(client, wanted.draws));
  (void)client.WaitForActivation();
  CHECK(client.Draws().empty() && client.RunWorkerPool(stir, elements));
}

/// Draws by the proved call and by the inlined step, in turns.
class Both final : public WorkerRunnable<std::uint64_t> {
 public:
  void Run(std::uint64_t& element, WorkerThread& thread) override {
    for (std::uint64_t left = 40 + element % 5; left != 0; --left) {
      bool const called = (left / 3 + element) % 2 == 0;
      element = element * 3 ^ (called ? thread.GetRandom() : thread.GetRandomInline());
    }
  }
};

void InlinedWords() {
  Script script({{}, {}, {}, {}});
  DeterministicClient client = ClientInCycle(script, 2);
  std::vector<std::uint64_t> elements(500);
  Number(elements);
  Both both;
  CHECK(client.RunWorkerPool(both, elements));
  for (std::uint32_t i = 0; i < 500; ++i) {
    auto stream = reference::StreamOf(reference::Key(0, 1, 0, i));
    std::uint64_t element = i;
    for (std::uint64_t left = 40 + i % 5; left != 0; --left) element = element * 3 ^ stream.Next();
    CHECK(elements[i] == element && client.Draws()[i] == 40 + i % 5);
  }
}

void InlinedStreams() {
  Script script({{}, {}, {}, {}});
  DeterministicClient client = ClientInCycle(script, 2);
  std::vector<std::uint64_t> elements(500);
  Number(elements);
  auto const stir = [](std::uint64_t& element, InlineWorkerThread& thread) {
    for (std::uint64_t left = element % 5; left != 0; --left) {
      element = element * 3 ^ thread.GetRandom();
    }
    if (thread.Element() == 77 || thread.Element() == 301) thread.Refuse(thread.Element());
  };
  CHECK(client.RunEach<std::uint64_t>(stir, elements));
  CHECK(client.Refused()->element == 77 && client.Refused()->code == 77);
  for (std::uint32_t i = 0; i < 500; ++i) {
    auto stream = reference::StreamOf(reference::Key(0, 1, 0, i));
    std::uint64_t element = i;
    for (std::uint64_t left = i % 5; left != 0; --left) element = element * 3 ^ stream.Next();
    CHECK(elements[i] == element && client.Draws()[i] == i % 5);
  }
}

/// A value in which the order of elements and of parts shows.
struct Chained {
  std::uint64_t number = 7;
  double sum = 0;

  void Add(std::uint64_t element) {
    number = number * 31 + element;
    sum += 1.0 / static_cast<double>(element % 1000 + 1);
  }
  void Join(Chained const& part) {
    number = number * 1000003 ^ part.number;
    sum += part.sum;
  }
};

/// The value of stirred elements, block by block: of 64 elements up to 4,096, else of 256.
Chained ChainOf(std::vector<std::uint64_t> const& elements) {
  std::size_t const length = elements.size() <= 4096 ? 64 : 256;
  Chained all;
  for (std::size_t begin = 0; begin < elements.size(); begin += length) {
    Chained part;
    for (std::size_t i = begin; i < std::min(begin + length, elements.size()); ++i) {
      part.Add(elements[i]);
    }
    all.Join(part);
  }
  return all;
}

void FoldedPasses() {
  for (std::size_t const count : kCounts) {
    Wanted const wanted = Stirred(count, 1);
    Chained const chain = ChainOf(wanted.elements);
    for (std::uint32_t const workers : {1u, 2u, 16u}) {
      Script script({{}, {}, {}, {}});
      DeterministicClient client = ClientInCycle(script, workers);
      client.SetRandomSeed(kSeed);
      std::vector<std::uint64_t> elements(count);
      Number(elements);
      Stir stir;
      auto const work = [&stir](std::uint64_t& element, WorkerThread& thread, Chained& part) {
        stir.Run(element, thread);
        part.Add(element);
      };
      auto const join = [](Chained& all, Chained const& part) { all.Join(part); };
      auto const found = client.FoldEach<std::uint64_t>(Chained{}, work, join, elements);
      CHECK(found && found->number == chain.number && found->sum == chain.sum);
      CHECK(elements == wanted.elements && AreDraws(client, wanted.draws));
    }
  }
}

void TooManyElements() {
  Script script({});
  DeterministicClient client = ClientInCycle(script, 2);
  std::vector<std::uint64_t> elements(65537), before = elements;
  Stir stir;
  CHECK(Refuses(client.RunWorkerPool(stir, elements), DeterministicErrc::kTooManyElements));
  CHECK(elements == before && client.Draws().empty());
}

void PassesOfInit() {
  // Before the first cycle the number of the cycle is 0, and passes are counted all the same.
  Script script({{}, {}, {}});
  DeterministicClient client = DeterministicClient::Create(script, 10, 2).Value();
  for (int k = 0; k < 3; ++k) (void)client.WaitForActivation();
  std::vector<std::uint64_t> elements(100);
  Stir stir;
  CHECK(client.RunWorkerPool(stir, elements));
  auto stream = reference::StreamOf(reference::Key(0, 0, 0, 99));
  CHECK(elements[99] == stream.Next());
}

void ARefusedCycle() {
  Script script({{}, {}, {}, {}, {}, {}});
  DeterministicClient client = DeterministicClient::Create(script, 10, 2).Value();
  (void)client.WaitForActivation();
  CHECK(Refuses(client.RefuseCycle(), DeterministicErrc::kNotInCycle));
  for (int k = 0; k < 3; ++k) (void)client.WaitForActivation();
  client.SetRandomSeed(kSeed);
  std::vector<std::uint64_t> elements(200);
  Number(elements);
  Stir stir;
  CHECK(client.RunWorkerPool(stir, elements));
  CHECK(client.RefuseCycle());
  CHECK(client.Seed() == 0 && client.Draws().empty() && client.Cycle() == 1);
  CHECK(client.GetRandom() == reference::OwnStream(0, 1).Next());
  client.SetRandomSeed(kSeed);  // run again, the passes of the cycle draw the same words
  Number(elements);
  CHECK(client.RunWorkerPool(stir, elements) && elements == Stirred(200, 1).elements);
  CHECK(client.RefuseCycle() && client.WaitForActivation());
  CHECK(client.Cycle() == 2 && client.Seed() == 0);
  (void)client.WaitForActivation();
  (void)client.WaitForActivation();
  CHECK(Refuses(client.RefuseCycle(), DeterministicErrc::kNotInCycle));
}

}  // namespace

int main() {
  check::Test("pools: vectors of 0 to 65,536 elements, 1, 2, 4 and 64 workers",
              [] { OverContainer<std::vector<std::uint64_t>>({1, 2, 4, 64}); });
  check::Test("pools: deques of 0 to 65,536 elements, 1, 3 and 16 workers",
              [] { OverContainer<std::deque<std::uint64_t>>({1, 3, 16}); });
  check::Test("pools: arrays of 0 to 65,536 elements", [] {
    OverArrays<0>();
    OverArrays<1>();
    OverArrays<63>();
    OverArrays<64>();
    OverArrays<65>();
    OverArrays<65536>();
  });
  check::Test("pools: lists of 0 to 65,536 elements, 1 and 4 workers",
              [] { OverContainer<std::list<std::uint64_t>>({1, 4}); });
  check::Test("pools: forward lists of 0 to 65,536 elements, 1 and 4 workers",
              [] { OverContainer<std::forward_list<std::uint64_t>>({1, 4}); });
  check::Test("pools: a container with only begin, end, * and ++", OverARing);
  check::Test("pools: a pass whose draws aren't counted", UncountedDraws);
  check::Test("pools: the least element that refuses", RefusingElements);
  check::Test("pools: an array of C", OverAnArrayOfC);
  check::Test("pools: a value of all elements, in the order of their blocks", FoldedPasses);
  check::Test("pools: 1 to 64 workers", EveryNumberOfWorkers);
  check::Test("pools: eight passes of a cycle, and no ninth", EightPasses);
  check::Test("pools: called and inlined words are one stream", InlinedWords);
  check::Test("pools: streams that are inlined from their start", InlinedStreams);
  check::Test("pools: 65,537 elements are refused, and stay", TooManyElements);
  check::Test("pools: a pass before the first cycle", PassesOfInit);
  check::Test("pools: a refused cycle keeps seed and own words, and can be run again",
              ARefusedCycle);
  return check::Status();
}
