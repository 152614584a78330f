// Activations that a test writes down.
#ifndef TESTS_CPP_SCRIPT_H
#define TESTS_CPP_SCRIPT_H

#include <cstddef>
#include <utility>
#include <vector>

#include "det/exec/deterministic_client.h"

/// Plays these activations, then stops.
class Script final : public det::exec::ActivationSource {
 public:
  explicit Script(std::vector<det::exec::Activation> given) : given_(std::move(given)) {}

  det::exec::Activation Next() override {
    return at_ < given_.size() ? given_[at_++] : det::exec::Activation{true, std::nullopt};
  }

 private:
  std::vector<det::exec::Activation> given_;
  std::size_t at_ = 0;
};

/// A client that has come to its first cycle, with a time of 0 and a cycle time of 10.
inline det::exec::DeterministicClient ClientInCycle(det::exec::ActivationSource& source,
                                                    unsigned workers) {
  using det::exec::DeterministicClient;
  DeterministicClient client = DeterministicClient::Create(source, 10, workers).Value();
  for (int k = 0; k < 4; ++k) (void)client.WaitForActivation();
  return client;
}

#endif
