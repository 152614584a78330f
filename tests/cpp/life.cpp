// The life of a client: activations, cycles, times, seeds and own words, by the C surface and by
// the class.
#include <cstring>

#include "answers.h"
#include "check.h"
#include "reference.h"
#include "script.h"

using namespace det::exec;

namespace {

using Return = ActivationReturnType;
constexpr std::uint64_t kMillion = 1000000;

void TheCycleTime() {
  DetClient client{};
  client.cycle = 77;
  CHECK(!det_client_new(&client, 0) && !det_client_new(&client, std::uint64_t{1} << 63));
  CHECK(client.cycle == 77);
  CHECK(det_client_new(&client, 1) && client.cycle == 0);
  CHECK(det_client_new(&client, (std::uint64_t{1} << 63) - 1));
}

void TheActivations() {
  DetClient client;
  CHECK(det_client_new(&client, 10));
  std::uint8_t activation = 9;
  std::uint64_t time = 99;
  for (std::uint8_t k = 0; k < 3; ++k) {
    CHECK(det_client_wait(&client, false, true, 1, &activation) && activation == k);
    CHECK(det_client_cycle(&client) == 0 && !det_client_time(&client, &time) && time == 99);
  }
  for (std::uint32_t cycle = 1; cycle <= 3; ++cycle) {
    CHECK(det_client_wait(&client, false, true, cycle, &activation) && activation == 3);
    CHECK(det_client_cycle(&client) == cycle);
    CHECK(det_client_time(&client, &time) && time == cycle);
  }
  CHECK(det_client_wait(&client, true, true, 4, &activation) && activation == 4);
  CHECK(det_client_wait(&client, false, true, 5, &activation) && activation == 4);
  CHECK(!det_client_time(&client, &time) && det_client_cycle(&client) == 3);
}

void AStopAtEachPlace() {
  for (int calls = 0; calls < 5; ++calls) {
    DetClient client;
    det_client_new(&client, 10);
    std::uint8_t activation = 9;
    for (int k = 0; k < calls; ++k) det_client_wait(&client, false, false, 0, &activation);
    for (int k = 0; k < 2; ++k) {
      CHECK(det_client_wait(&client, k == 0, false, 0, &activation) && activation == 4);
    }
  }
}

void TheCycleLimit() {
  DetClient client;
  det_client_new(&client, 1);
  std::uint8_t activation = 0;
  bool ran = true;
  for (std::uint64_t k = 0; k < 3 + kMillion; ++k) {
    ran = det_client_wait(&client, false, false, 0, &activation) && ran;
  }
  CHECK(ran && det_client_cycle(&client) == kMillion);
  activation = 9;
  DetClient const kept = client;
  CHECK(!det_client_wait(&client, false, true, 5, &activation) && activation == 9);
  CHECK(client.cycle == kept.cycle && client.last == kept.last && !client.has_time);
  CHECK(det_client_random(&client) == reference::OwnStream(0, kMillion).Next());
  CHECK(det_client_wait(&client, true, false, 0, &activation) && activation == 4);
}

void TheOwnWords() {
  DetClient client;
  det_client_new(&client, 10);
  reference::Xoshiro256PlusPlus own = reference::OwnStream(0, 0);
  auto const draw = [&](int words) {
    for (int k = 0; k < words; ++k) CHECK(det_client_random(&client) == own.Next());
  };
  for (std::uint64_t call = 0; call < 9; ++call) {
    draw(20);
    std::uint8_t activation = 0;
    det_client_wait(&client, call == 7, false, 0, &activation);
    bool const anew = activation == 2 || activation == 3;  // Init and each cycle
    if (anew) own = reference::OwnStream(det_client_seed(&client), det_client_cycle(&client));
    draw(3);
    if (call % 2 == 0) continue;
    det_client_set_seed(&client, call);
    CHECK(det_client_seed(&client) == call);
    own = reference::OwnStream(call, det_client_cycle(&client));
  }
}

void ACopyIsTheSameClient() {
  DetClient client;
  det_client_new(&client, 10);
  det_client_set_seed(&client, 3);
  det_client_random(&client);
  DetClient copy = client;
  reference::Xoshiro256PlusPlus own = reference::OwnStream(3, 0);
  own.Next();
  std::uint64_t const second = own.Next();
  CHECK(det_client_random(&client) == second && det_client_random(&copy) == second);
  std::uint8_t one = 8, other = 9;
  CHECK(det_client_wait(&client, false, false, 0, &one));
  CHECK(det_client_wait(&copy, false, false, 0, &other) && one == other);
}

void TheClass() {
  Script script({{}, {}, {}, {false, 5}, {}, {false, UINT64_MAX - 3}});
  DeterministicClient client = DeterministicClient::Create(script, 10).Value();
  CHECK(client.Cycle() == 0 && client.Workers() == 1 && client.Seed() == 0);
  CHECK(client.WaitForActivation().Value() == Return::kRegisterServices);
  CHECK(client.WaitForNextActivation().Value() == Return::kServiceDiscovery);
  CHECK(client.WaitForActivation().Value() == Return::kInit);
  client.SetRandomSeed(7);
  for (std::uint32_t cycle = 1; cycle <= 3; ++cycle) {
    CHECK(client.WaitForActivation().Value() == Return::kRun && client.Cycle() == cycle);
    reference::Xoshiro256PlusPlus own = reference::OwnStream(7, cycle);
    CHECK(client.GetRandom() == own.Next() && client.GetRandom() == own.Next());
  }
  CHECK(client.WaitForActivation().Value() == Return::kTerminate);
  CHECK(client.WaitForActivation().Value() == Return::kTerminate);
}

std::int64_t Count(Result<ActivationTimeStamp> const& stamp) {
  return stamp.Value().time_since_epoch().count();
}

void TheTimeStamps() {
  constexpr std::uint64_t most = INT64_MAX;
  Script script({{}, {}, {}, {false, 5}, {}, {false, most}, {false, most + 1},
                 {false, UINT64_MAX}});
  DeterministicClient client = ClientInCycle(script, 1);
  CHECK(Count(client.GetActivationTime()) == 5 && Count(client.GetNextActivationTime()) == 15);
  (void)client.WaitForActivation();
  CHECK(Refuses(client.GetActivationTime(), DeterministicErrc::kNoTimeStampAvailable));
  CHECK(Refuses(client.GetNextActivationTime(), DeterministicErrc::kNoTimeStampAvailable));
  (void)client.WaitForActivation();
  CHECK(Count(client.GetActivationTime()) == INT64_MAX);
  CHECK(Refuses(client.GetNextActivationTime(), DeterministicErrc::kTimeStampTooLarge));
  CHECK(client.GetNextActivationNanoseconds() == most + 10);
  (void)client.WaitForActivation();
  CHECK(Refuses(client.GetActivationTime(), DeterministicErrc::kTimeStampTooLarge));
  CHECK(client.GetActivationNanoseconds() == most + 1);
  (void)client.WaitForActivation();
  CHECK(client.GetActivationNanoseconds() == UINT64_MAX);
  CHECK(!client.GetNextActivationNanoseconds());  // beyond 2^64 - 1
  CHECK(Refuses(client.GetNextActivationTime(), DeterministicErrc::kNoTimeStampAvailable));
}

void WhatCreateRefuses() {
  Script script({});
  auto const made = [&](std::uint64_t cycle_time, unsigned workers) {
    return DeterministicClient::Create(script, cycle_time, workers);
  };
  CHECK(Refuses(made(0, 1), DeterministicErrc::kBadCycleTime));
  CHECK(Refuses(made(std::uint64_t{1} << 63, 1), DeterministicErrc::kBadCycleTime));
  CHECK(Refuses(made(1, 0), DeterministicErrc::kBadWorkers));
  CHECK(Refuses(made(1, 65), DeterministicErrc::kBadWorkers));
  CHECK(Refuses(made(0, 0), DeterministicErrc::kBadCycleTime));
  CHECK(DeterministicClient::Create(script, 1, 64).Value().Workers() == 64);
}

void TheLimitOfTheClass() {
  class Endless final : public ActivationSource {
    Activation Next() override { return {}; }
  } source;
  DeterministicClient client = DeterministicClient::Create(source, 1).Value();
  bool ran = true;
  for (std::uint64_t k = 0; k < 3 + kMillion; ++k) ran = client.WaitForActivation() && ran;
  CHECK(ran && Refuses(client.WaitForActivation(), DeterministicErrc::kTooManyCycles));
  CHECK(client.Cycle() == kMillion);
}

void AMovedClient() {
  Script script({{}, {}, {}, {}, {}});
  DeterministicClient first = ClientInCycle(script, 4);
  DeterministicClient second = std::move(first);
  CHECK(second.Workers() == 4 && second.GetRandom() == reference::OwnStream(0, 1).Next());
  CHECK(second.WaitForActivation().Value() == Return::kRun && second.Cycle() == 2);
}

}  // namespace

int main() {
  check::Test("life: a cycle time of 1 to 2^63 - 1", TheCycleTime);
  check::Test("life: activations, cycles and times in their order", TheActivations);
  check::Test("life: a stop at each place ends it for good", AStopAtEachPlace);
  check::Test("life: 1,000,000 cycles, and no more", TheCycleLimit);
  check::Test("life: own words begin anew with Init, each cycle and each seed", TheOwnWords);
  check::Test("life: a copied client goes on as the client", ACopyIsTheSameClient);
  check::Test("life: the class answers the same", TheClass);
  check::Test("life: time stamps, and times that none can hold", TheTimeStamps);
  check::Test("life: Create refuses cycle times and numbers of workers", WhatCreateRefuses);
  check::Test("life: the class reports the limit of cycles", TheLimitOfTheClass);
  check::Test("life: a moved client goes on", AMovedClient);
  return check::Status();
}
