// The blocks of a container.
#include <cstdint>

#include "det/exec/det_client.h"
#include "check.h"

namespace {

/// Whether blocks 0, 1, .. hold each of `len` elements once, in order, and `size` but the last one.
bool PartsExactly(std::uint32_t len, std::uint32_t size) {
  std::uint32_t at = 0, begin = 0, end = 0, number = 0;
  for (; det_block(len, number, &begin, &end); ++number) {
    if (begin != at || end <= begin || (end - begin != size && end != len)) return false;
    at = end;
  }
  return at == len && number == det_block_count(len);
}

void EachElementOnce() {
  for (std::uint32_t len : {0u, 1u, 63u, 64u, 65u, 127u, 128u, 4095u, 4096u}) {
    CHECK(PartsExactly(len, 64));
  }
  for (std::uint32_t len : {4097u, 4351u, 4352u, 4353u, 65535u, 65536u, 1000000u}) {
    CHECK(PartsExactly(len, 256));
  }
}

void TheirCount() {
  struct Row {
    std::uint32_t len, count;
  };
  for (Row row : {Row{0, 0}, Row{1, 1}, Row{64, 1}, Row{65, 2}, Row{4096, 64}, Row{4097, 17},
                  Row{65536, 256}, Row{65537, 257}, Row{UINT32_MAX, 16777216}}) {
    CHECK(det_block_count(row.len) == row.count);
  }
}

void LaterBlocksAreEmpty() {
  for (std::uint32_t len : {0u, 1u, 64u, 65u, 4096u, 4097u, 65536u, UINT32_MAX}) {
    std::uint32_t begin = 7, end = 8;
    CHECK(!det_block(len, det_block_count(len), &begin, &end));
    CHECK(begin == len && end == len);
    CHECK(!det_block(len, UINT32_MAX, &begin, &end));
    CHECK(begin == len && end == len);
  }
}

void TheGreatestContainer() {
  std::uint32_t begin = 0, end = 0;
  // 2^32 - 1 = 256 * 16,777,215 + 255
  CHECK(det_block(UINT32_MAX, 16777215, &begin, &end));
  CHECK(begin == 4294967040 && end == 4294967295);
}

}  // namespace

int main() {
  check::Test("blocks: each element is in one block", EachElementOnce);
  check::Test("blocks: how many there are", TheirCount);
  check::Test("blocks: all are empty after the last one", LaterBlocksAreEmpty);
  check::Test("blocks: the last one of 2^32 - 1 elements", TheGreatestContainer);
  return check::Status();
}
