// The library's own translation unit.
#include "plain_words.h"

namespace plain {

PassKeys Called::KeysOf(std::uint64_t seed, std::uint32_t cycle, std::uint8_t pass) {
  return Inlined::KeysOf(seed, cycle, pass);
}

void Called::Begin(Stream& stream, PassKeys const& keys, std::uint32_t element) {
  Inlined::Begin(stream, keys, element);
}

std::uint64_t Called::Next(Stream& stream) { return Inlined::Next(stream); }

std::uint32_t Called::BlockCount(std::uint32_t count) { return Inlined::BlockCount(count); }

bool Called::BlockOf(std::uint32_t count, std::uint32_t number, Block& block) {
  return Inlined::BlockOf(count, number, block);
}

}  // namespace plain
