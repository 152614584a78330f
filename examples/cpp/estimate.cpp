// Floating point done right: a thousand filters estimate a level from noisy measurements. Compiled
// with -ffp-contract=off, they compute the same bits on every processor with IEEE arithmetic.
//
//     g++ -ffp-contract=off ..       estimate record estimate.toml estimate.stim > estimate.rec
//
// - Only +, -, *, / and sqrt are used. Their results are exact to the last bit; those of sin or exp
//   depend on the C library.
// - Sums are made in the order of the elements, after the pass and not in it.
// - The compiler neither gets -ffast-math nor fuses a product and a sum.
// - Rounding and small numbers are as IEEE has them. A library that was linked with -ffast-math can
//   change that when it is loaded.
// - The record holds the bits of a number, so it also distinguishes 0 and -0.
#include <cfenv>
#include <cfloat>
#include <cmath>
#include <cstring>
#include <limits>
#include <stdexcept>

#include "det/exec/application.h"

using namespace det::exec;

#if defined(__FAST_MATH__)
#error "-ffast-math changes results: compile without it"
#endif
static_assert(std::numeric_limits<double>::is_iec559, "a double is an IEEE number");
static_assert(FLT_EVAL_METHOD == 0, "each operation is rounded to its type");

/// Whether products are rounded before they are added, to the nearest, and small numbers are kept.
bool IsArithmeticExact() {
  double const volatile near_one = 1 + std::ldexp(1.0, -27), square = 1 + std::ldexp(1.0, -26);
  double const volatile least = DBL_MIN;
  double const factor = near_one, product = square;
  return factor * factor - product == 0 && least / 2 != 0 && std::fegetround() == FE_TONEAREST;
}

std::uint64_t BitsOf(double value) {
  std::uint64_t bits;
  std::memcpy(&bits, &value, sizeof bits);
  return bits;
}

/// A random number in [0, 1), a multiple of 2^-53.
double UnitOf(std::uint64_t random) { return static_cast<double>(random >> 11) * 0x1p-53; }

struct Filter {
  double level, variance;
};

class Estimate final : public Job<Filter> {
 public:
  static constexpr char const* kName = "estimate";
  static constexpr std::uint16_t kNumber = 79;

  explicit Estimate(Parameters& params)
      : filters_(params.Take("filters", 1, 65536)),
        noise_(static_cast<double>(params.Take("noise", 1, 1000000))) {}

  void Init(Start<Estimate>& start) const {
    if (!IsArithmeticExact()) throw std::runtime_error("compile with -ffp-contract=off");
    start.Resize(static_cast<std::size_t>(filters_), Filter{0, 1});
    start.ReserveElement(16);
  }

  void Run(Cycle<Estimate>& cycle) const {
    auto const sample = cycle.Newest(0);
    double const measured = static_cast<double>(sample.value_or(0));
    bool const done = cycle.Pass([&](Filter& filter, WorkerThread& thread) {
      filter.variance += 1;
      if (!sample) return;
      double const seen = measured + noise_ * (UnitOf(thread.GetRandom()) - 0.5);
      double const gain = filter.variance / (filter.variance + noise_);
      filter.level += gain * (seen - filter.level);
      filter.variance *= 1 - gain;
    });
    if (!done) return;
    double sum = 0, squares = 0;
    for (Filter const& filter : cycle.Elements()) sum += filter.level;
    double const mean = sum / static_cast<double>(filters_);
    for (Filter const& filter : cycle.Elements()) {
      squares += (filter.level - mean) * (filter.level - mean);
    }
    double const spread = std::sqrt(squares / static_cast<double>(filters_));
    cycle.Output().U64(BitsOf(mean)).U64(BitsOf(spread));
  }

  static void Spell(Filter const& filter, ElementSpelling& out) {
    out.U64(BitsOf(filter.level)).U64(BitsOf(filter.variance));
  }

 private:
  std::int64_t filters_;
  double noise_;
};

int main(int count, char** arguments) { return Main<Estimate>(count, arguments); }
