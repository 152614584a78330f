// Sinks of records that tests look at.
#ifndef TESTS_CPP_SINKS_H
#define TESTS_CPP_SINKS_H

#include <cstdint>
#include <vector>

#include "det/exec/record_sink.h"

/// Keeps the bytes.
class KeptBytes final : public det::exec::RecordSink {
 public:
  bool Write(std::uint8_t const* bytes, std::size_t count) noexcept override {
    kept.insert(kept.end(), bytes, bytes + count);
    return true;
  }

  std::vector<std::uint8_t> kept;
};

#endif
