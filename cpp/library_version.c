/* The version and the layout of the library: include/det/exec/version.h says what they are for.
 *
 * They are written here and not in Rattle, since they are about the headers. Nothing else is
 * included, so that a compiler without a C library builds this for any processor. */
#include "det/exec/version.h"

unsigned det_library_version(void) { return DET_VERSION; }

void det_layout_1(void) {}
