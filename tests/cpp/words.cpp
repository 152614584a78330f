// The random words of the C surface, against the published generators.
#include "det/exec/det_client.h"
#include "check.h"
#include "reference.h"

namespace {

void ThePublishedVectors() {
  // The first outputs that the authors' C programs print: of SplitMix64 started at
  // 1477776061723855037, and of xoshiro256++ in the state 1, 2, 3, 4.
  reference::SplitMix64 split{1477776061723855037};
  CHECK(split.Next() == 1985237415132408290 && split.Next() == 2979275885539914483 &&
        split.Next() == 13511426838097143398u);
  reference::Xoshiro256PlusPlus stream{{1, 2, 3, 4}};
  CHECK(stream.Next() == 41943041 && stream.Next() == 58720359 &&
        stream.Next() == 3588806011781223 && stream.Next() == 3591011842654386);
}

void TheStreamOfKeyZero() {
  // xoshiro256++ seeded by SplitMix64 from 0, as the crate rand_xoshiro has it.
  DetRandom random;
  det_random_of_key(&random, 0);
  CHECK(random.draws == 0);
  CHECK(det_random_next(&random) == 5987356902031041503);
  CHECK(det_random_next(&random) == 7051070477665621255);
  CHECK(det_random_next(&random) == 6633766593972829180);
  CHECK(random.draws == 3);
}

bool SameWords(DetRandom& random, std::uint64_t key, unsigned count) {
  reference::Xoshiro256PlusPlus stream = reference::StreamOf(key);
  for (unsigned k = 0; k < count; ++k) {
    if (random.draws != k || det_random_next(&random) != stream.Next()) return false;
  }
  return random.draws == count;
}

void WordsOfManyElements() {
  reference::SplitMix64 chosen{12345};
  for (int k = 0; k < 2000; ++k) {
    std::uint64_t const seed = chosen.Next();
    auto const cycle = static_cast<std::uint32_t>(chosen.Next() % 1000001);
    auto const pass = static_cast<std::uint8_t>(chosen.Next() % 8);
    auto const element = static_cast<std::uint32_t>(chosen.Next() % 65536);
    std::uint64_t const key = reference::Key(seed, cycle, pass, element);
    CHECK(det_random_key(seed, cycle, pass, element) == key);
    DetRandom random;
    det_random_of_key(&random, key);
    CHECK(SameWords(random, key, 50));
    DetPassKeys keys;
    det_pass_keys(&keys, seed, cycle, pass);
    det_random_in_pass(&random, &keys, element);
    CHECK(SameWords(random, key, 50));
  }
}

void ALongStream() {
  std::uint64_t const key = reference::Key(3, 2, 1, 0);
  DetRandom random;
  det_random_of_key(&random, key);
  CHECK(SameWords(random, key, 1000000));
}

void ACopyIsTheSameStream() {
  DetRandom random;
  det_random_of_key(&random, 7);
  det_random_next(&random);
  DetRandom copy = random;
  reference::Xoshiro256PlusPlus stream = reference::StreamOf(7);
  stream.Next();
  std::uint64_t const second = stream.Next();
  CHECK(det_random_next(&random) == second && det_random_next(&copy) == second);
  CHECK(random.draws == 2 && copy.draws == 2);
}

void TheCountStandsAtItsEnd() {
  DetRandom random;
  det_random_of_key(&random, 7);
  random.draws = UINT64_MAX;
  reference::Xoshiro256PlusPlus stream = reference::StreamOf(7);
  for (int k = 0; k < 3; ++k) CHECK(det_random_next(&random) == stream.Next());
  CHECK(random.draws == UINT64_MAX);
}

}  // namespace

int main() {
  check::Test("words: the generators of these tests give the published vectors",
              ThePublishedVectors);
  check::Test("words: the stream of key 0 is the published one", TheStreamOfKeyZero);
  check::Test("words: keys and words of 2,000 elements", WordsOfManyElements);
  check::Test("words: a million words of one stream", ALongStream);
  check::Test("words: a copied stream goes on as the stream", ACopyIsTheSameStream);
  check::Test("words: the count of draws stays at its end, and the words go on",
              TheCountStandsAtItsEnd);
  return check::Status();
}
