/* A manifest, read from its text: the exports of the static library det_manifest_c, which are
 * proved.
 *
 * docs/FORMATS.md, "Manifest", has the keys, their ranges, and the order in which faults are found.
 *
 * Every call may be given any bytes and any struct. It keeps no pointer. Each pointer is to live
 * objects, also one to no items, and no two pointers of a call overlap. While a call runs, no other
 * thread uses what it may change, or changes what it reads. What det_manifest_read and
 * det_manifest_toml_line need for themselves they take and give back by rattle_alloc,
 * rattle_realloc and rattle_dealloc. */
#ifndef DET_EXEC_DET_MANIFEST_H
#define DET_EXEC_DET_MANIFEST_H

#include "det/exec/det_types.h"

#ifdef __cplusplus
extern "C" {
#endif

enum { DET_MANIFEST_READ = 0, DET_MANIFEST_FAULT = 1, DET_MANIFEST_NO_MEMORY = 2 };

/* Reads a manifest from its whole text, up to the name of its job and its parameters, which are the
 * application's to check. With READ `manifest` is what the text says. With FAULT `fault` is its
 * first fault; if `strict`, an unknown key is one. Anything else is left as it was. */
uint8_t det_manifest_read(DetManifest *manifest, DetManifestFault *fault, const uint8_t *bytes,
                          size_t count, bool strict);

/* The line, counted from 1, at which a text stops being TOML. 0 if it is TOML, or if there is too
 * little memory to find the line. */
size_t det_manifest_toml_line(const uint8_t *bytes, size_t count);

/* Whether the manifest's job has this name. No job has a name of more than 64 bytes. */
bool det_manifest_is_job(const DetManifest *manifest, const uint8_t *name, size_t count);

#ifdef __cplusplus
}
#endif

#endif
