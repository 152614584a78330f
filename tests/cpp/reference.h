// The published generators, written from their papers: SplitMix64 (Steele, Lea and Flood, 2014) and
// xoshiro256++ (Blackman and Vigna, 2019), and the keys of docs/FORMATS.md.
#ifndef TESTS_CPP_REFERENCE_H
#define TESTS_CPP_REFERENCE_H

#include <cstdint>

namespace reference {

struct SplitMix64 {
  std::uint64_t state;

  std::uint64_t Next() {
    state += 0x9e3779b97f4a7c15;
    std::uint64_t z = state;
    z = (z ^ (z >> 30)) * 0xbf58476d1ce4e5b9;
    z = (z ^ (z >> 27)) * 0x94d049bb133111eb;
    return z ^ (z >> 31);
  }
};

struct Xoshiro256PlusPlus {
  std::uint64_t s[4];

  static std::uint64_t Rotated(std::uint64_t x, unsigned k) { return (x << k) | (x >> (64 - k)); }

  std::uint64_t Next() {
    std::uint64_t const result = Rotated(s[0] + s[3], 23) + s[0];
    std::uint64_t const shifted = s[1] << 17;
    s[2] ^= s[0];
    s[3] ^= s[1];
    s[1] ^= s[2];
    s[0] ^= s[3];
    s[2] ^= shifted;
    s[3] = Rotated(s[3], 45);
    return result;
  }
};

inline std::uint64_t Mixed(std::uint64_t x) { return SplitMix64{x}.Next(); }

inline std::uint64_t Key(std::uint64_t seed, std::uint32_t cycle, std::uint8_t pass,
                         std::uint32_t element) {
  return Mixed(Mixed(Mixed(seed) ^ cycle) ^ ((std::uint64_t{pass} << 32) + element));
}

inline Xoshiro256PlusPlus StreamOf(std::uint64_t key) {
  SplitMix64 first{key};
  Xoshiro256PlusPlus stream{};
  for (std::uint64_t& word : stream.s) word = first.Next();
  return stream;
}

/// The own stream of a client.
inline Xoshiro256PlusPlus OwnStream(std::uint64_t seed, std::uint32_t cycle) {
  return StreamOf(Key(seed, cycle, 255, 0));
}

}  // namespace reference

#endif
