// A job with a mistake: its pass changes what all elements share. With one worker it is never seen.
// Copies with more workers differ, and det_lane says where:
//
//     det_lane buggy 3 buggy.toml buggy.stim
#include "det/exec/application.h"

using namespace det::exec;

class Buggy final : public Job<std::int64_t> {
 public:
  static constexpr char const* kName = "buggy";
  static constexpr std::uint16_t kNumber = 78;

  void Init(Start<Buggy>& start) const { start.Resize(65536); }

  void Run(Cycle<Buggy>& cycle) const {
    std::int64_t volatile shared = 0;
    (void)cycle.Pass([&](std::int64_t& element, WorkerThread&) {
      shared = shared + 1;  // the mistake
      element = shared;
    });
  }
};

int main(int count, char** arguments) { return Main<Buggy>(count, arguments); }
