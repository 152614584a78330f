// Results as those of ara::core, over the least of its headers.
#include <string>

#include "det/exec/recorder.h"
#include "check.h"
#include "script.h"
#include "sinks.h"

using namespace det::exec;

namespace {

ara::core::Result<ActivationReturnType> Wait(DeterministicClient& client) {
  return client.WaitForActivation();
}

void Values() {
  Script script({});
  DeterministicClient client = DeterministicClient::Create(script, 10).Value();
  ara::core::Result<ActivationReturnType> const answer = Wait(client);
  CHECK(answer.HasValue() && answer.Value() == ActivationReturnType::kTerminate);
}

void Errors() {
  Script script({});
  DeterministicClient client = DeterministicClient::Create(script, 10).Value();
  ara::core::Result<ActivationTimeStamp> const time = client.GetActivationTime();
  CHECK(!time.HasValue() && time.Error().Value() == 8);
  CHECK(&time.Error().Domain() == &GetDeterministicErrorDomain());
  CHECK(time.Error().Message() == std::string("no time stamp available"));
  CHECK(time.Error().Domain().Name() == std::string("Deterministic"));
}

void NothingAndErrors() {
  KeptBytes sink;
  Recorder recorder(sink);
  ara::core::Result<void> const misplaced = recorder.Register();
  CHECK(!misplaced.HasValue() && misplaced.Error().Value() == 14);
  ara::core::Result<void> const done = recorder.Header(DetProfile{0, 1, 1});
  CHECK(done.HasValue());
}

void OwnErrors() {
  Script script({});
  ara::core::Result<DeterministicClient, DeterministicErrc> const refused =
      DeterministicClient::Create(script, 0);
  CHECK(!refused.HasValue() && refused.Error() == DeterministicErrc::kBadCycleTime);
}

void Thrown() {
  bool caught = false;
  try {
    ara::core::ErrorCode(DeterministicErrc::kNoMemory).ThrowAsException();
  } catch (DeterministicException const& thrown) {
    caught = thrown.Error().Value() == 4;
  }
  CHECK(caught);
}

}  // namespace

int main() {
  check::Test("core: a value", Values);
  check::Test("core: an error, with its domain and message", Errors);
  check::Test("core: done, and an error in its place", NothingAndErrors);
  check::Test("core: errors as the enum itself", OwnErrors);
  check::Test("core: an error thrown as an exception", Thrown);
  return check::Status();
}
