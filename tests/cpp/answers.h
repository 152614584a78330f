// Answers that are errors.
#ifndef TESTS_CPP_ANSWERS_H
#define TESTS_CPP_ANSWERS_H

#include "det/exec/result.h"

/// Whether a call answered an error with this code, of this element.
template <typename Answer>
bool Refuses(Answer const& answer, det::exec::DeterministicErrc code, std::uint32_t element = 0) {
  return !answer && answer.Error() == det::exec::DeterministicError{code, element};
}

#endif
