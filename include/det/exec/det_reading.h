/* Reading a record: the exports of the static library det_reading_c, which are proved.
 *
 * Every call is total: it may get any bytes and any struct, always returns, and reads no byte
 * beyond the count that it gets. No call takes memory or keeps a pointer. Each pointer is to one
 * live object, or to as many as a count says, also to none; no two pointers overlap. While a
 * call runs, no other thread uses what it may change, or changes what it reads. A frame is returned
 * as offsets into the caller's bytes, which say nothing once these change. docs/FORMATS.md,
 * "Record", has the bytes. */
#ifndef DET_EXEC_DET_READING_H
#define DET_EXEC_DET_READING_H

#include <stdbool.h>
#include <stddef.h>
#include <stdint.h>

#include "det/exec/det_types.h"

#ifdef __cplusplus
extern "C" {
#endif

/* How far a frame was read that wants more bytes. Part 1 is the elements of Init, 2 the elements of
 * a cycle or its output, and any other number what comes before these. */
typedef struct DetScan {
  size_t read; /* how many bytes aren't read again */
  size_t samples_at, outcome_at, elements_at;
  DetTime time;
  uint32_t samples, elements;
  uint32_t left; /* how many elements are still to be read */
  uint8_t part;
} DetScan;

/* How far a record was read. Only the calls fill it; a copy of it is the same place. */
typedef struct DetReading {
  uint64_t offset; /* of the first byte of the header or frame that comes next */
  DetRecord record;
  DetScan scan;
} DetReading;

/* What a call returns that reads. If it isn't DET_READING_WHOLE, the header, its length and the
 * frame are as they were. So is the reading, but for `scan` with DET_READING_MORE. `fault` changes
 * only with DET_READING_FAULT. */
enum {
  DET_READING_WHOLE = 0,
  DET_READING_MORE = 1,     /* the bytes end before the header or the frame does */
  DET_READING_FAULT = 2,    /* `fault` is the first byte with which none begins */
  DET_READING_MISPLACED = 3 /* a header after the header, or a frame before it */
};

/* A record of which nothing was read. */
void det_reading_new(DetReading *reading);

/* Reads the header with which these bytes begin, and its length. Each call reads it from its first
 * byte; it has at most 9,374. */
uint8_t det_reading_header(DetReading *reading, const uint8_t *bytes, size_t count,
                           DetHeader *header, size_t *length, DetRecordFault *fault);

/* Reads the frame with which these bytes begin. After DET_READING_MORE the next call gets the same
 * bytes and those that follow them, and goes on where this one stopped. A scan that has read more
 * bytes than there are is dropped, and the frame is read from its first byte. After Terminate any
 * byte is a fault, and no bytes are DET_READING_MORE. */
uint8_t det_reading_frame(DetReading *reading, const uint8_t *bytes, size_t count, DetFrame *frame,
                          DetRecordFault *fault);

/* Whether what was read is a whole record, if `left` bytes that weren't read are the last ones. If
 * not, `fault` is that it is truncated at its length. It is asked after DET_READING_MORE. */
bool det_reading_end(const DetReading *reading, uint64_t left, DetRecordFault *fault);

/* Sample `number` of a frame, counted from 0, from the frame's bytes. Returns false and changes
 * nothing if the frame has no such sample. */
bool det_frame_sample(const DetFrame *frame, const uint8_t *bytes, size_t count, uint32_t number,
                      DetSample *sample);

/* The element at `at`, which is frame->elements for the first one, and after the call the offset of
 * the next one. The caller counts them. Returns false and changes nothing if no whole element is
 * there. */
bool det_frame_element(const DetFrame *frame, const uint8_t *bytes, size_t count, size_t *at,
                       DetElement *element);

/* Whether these bytes are exactly `elements` elements of a finished cycle, one after another: of
 * each, its length in two bytes, at most 64 bytes, and, unless the format is 1, its draws in four.
 * Numbers are big-endian. */
bool det_are_elements(uint8_t format, uint32_t elements, const uint8_t *bytes, size_t count);

enum { DET_FRAMES_EQUAL = 0, DET_FRAMES_DIFFER = 1, DET_FRAMES_NONE = 2 };

/* Compares what may be two frames `number`, counted from 0, of two records in this format with so
 * many events. DET_FRAMES_EQUAL: they are the same frame. DET_FRAMES_DIFFER: both are whole, and
 * `place` is their first difference. DET_FRAMES_NONE: one of them isn't exactly one whole frame
 * that may come there. `place` changes only with DET_FRAMES_DIFFER. Any format but 1 is 2. */
uint8_t det_frame_difference(uint8_t format, uint16_t events, uint32_t number, const uint8_t *left,
                             size_t left_count, const uint8_t *right, size_t right_count,
                             DetPlace *place);

#ifdef __cplusplus
}
#endif

#endif
