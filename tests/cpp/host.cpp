// Loads the shared object of its one word, uses the client in it and unloads it, twice.
#include <dlfcn.h>

#include "check.h"
#include "reference.h"

namespace {

std::uint64_t Wanted() {
  std::uint64_t words = 0;
  for (std::uint32_t i = 0; i < 500; ++i) {
    words ^= reference::StreamOf(reference::Key(0, 1, 0, i)).Next();
  }
  return words;
}

void LoadAndUse(char const* path) {
  void* const object = dlopen(path, RTLD_NOW | RTLD_LOCAL);
  CHECK(object != nullptr);
  if (object == nullptr) return;
  auto const words = reinterpret_cast<std::uint64_t (*)()>(dlsym(object, "WordsOfAPass"));
  CHECK(words != nullptr && words() == Wanted());
  CHECK(dlclose(object) == 0);
}

}  // namespace

int main(int count, char** words) {
  if (count != 2) return 2;
  check::Test("plugin: a client in a shared object that is loaded and unloaded", [&] {
    LoadAndUse(words[1]);
    LoadAndUse(words[1]);
  });
  return check::Status();
}
