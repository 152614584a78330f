// Random words of elements in plain C++, as a library would offer them: compiled into the library
// (Called), or inlined from its header (Inlined). The generators are those of docs/FORMATS.md.
#ifndef BENCH_CPP_PLAIN_WORDS_H
#define BENCH_CPP_PLAIN_WORDS_H

#include <cstdint>

namespace plain {

struct Stream {
  std::uint64_t state[4];
  std::uint64_t draws;
};

struct PassKeys {
  std::uint64_t shared;
  std::uint8_t pass;
};

struct Block {
  std::uint32_t begin, end;
};

struct Inlined {
  static std::uint64_t Rotated(std::uint64_t word, unsigned by) {
    return (word << by) | (word >> (64 - by));
  }

  static std::uint64_t Mixed(std::uint64_t word) {
    word += 0x9e3779b97f4a7c15;
    word = (word ^ (word >> 30)) * 0xbf58476d1ce4e5b9;
    word = (word ^ (word >> 27)) * 0x94d049bb133111eb;
    return word ^ (word >> 31);
  }

  static PassKeys KeysOf(std::uint64_t seed, std::uint32_t cycle, std::uint8_t pass) {
    return {Mixed(Mixed(seed) ^ cycle), pass};
  }

  static void Begin(Stream& stream, PassKeys const& keys, std::uint32_t element) {
    std::uint64_t key = Mixed(keys.shared ^ ((std::uint64_t{keys.pass} << 32) + element));
    for (std::uint64_t& word : stream.state) {
      word = Mixed(key);
      key += 0x9e3779b97f4a7c15;
    }
    stream.draws = 0;
  }

  static std::uint64_t Next(Stream& stream) {
    std::uint64_t* const state = stream.state;
    std::uint64_t const word = Rotated(state[0] + state[3], 23) + state[0];
    std::uint64_t const shifted = state[1] << 17;
    state[2] ^= state[0];
    state[3] ^= state[1];
    state[1] ^= state[2];
    state[0] ^= state[3];
    state[2] ^= shifted;
    state[3] = Rotated(state[3], 45);
    ++stream.draws;
    return word;
  }

  static std::uint32_t BlockSize(std::uint32_t count) { return count <= 4096 ? 64 : 256; }

  static std::uint32_t BlockCount(std::uint32_t count) {
    std::uint32_t const size = BlockSize(count);
    return count / size + (count % size != 0);
  }

  static bool BlockOf(std::uint32_t count, std::uint32_t number, Block& block) {
    if (number >= BlockCount(count)) return false;
    std::uint32_t const size = BlockSize(count);
    block.begin = number * size;
    block.end = count - block.begin < size ? count : block.begin + size;
    return true;
  }
};

struct Called {
  static PassKeys KeysOf(std::uint64_t seed, std::uint32_t cycle, std::uint8_t pass);
  static void Begin(Stream& stream, PassKeys const& keys, std::uint32_t element);
  static std::uint64_t Next(Stream& stream);
  static std::uint32_t BlockCount(std::uint32_t count);
  static bool BlockOf(std::uint32_t count, std::uint32_t number, Block& block);
};

}  // namespace plain

#endif
