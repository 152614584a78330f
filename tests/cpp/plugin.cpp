// A shared object with a client of its own: what an application loads.
#include <numeric>
#include <vector>

#include "script.h"

using namespace det::exec;

namespace {

class Draw final : public WorkerRunnable<std::uint64_t> {
  void Run(std::uint64_t& element, WorkerThread& thread) override { element = thread.GetRandom(); }
};

}  // namespace

/// The exclusive or of the first words of 500 elements in pass 0 of cycle 1, by 3 workers.
extern "C" std::uint64_t WordsOfAPass() {
  Script script({{}, {}, {}, {}});
  DeterministicClient client = ClientInCycle(script, 3);
  std::vector<std::uint64_t> elements(500);
  Draw draw;
  if (!client.RunWorkerPool(draw, elements)) return 0;
  return std::accumulate(elements.begin(), elements.end(), std::uint64_t{0}, std::bit_xor<>());
}
