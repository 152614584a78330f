/* A record for C, written part by part: the exports of the static library det_record_c, which are
 * proved.
 *
 * Each call puts bytes into `out`, which has room for `room` bytes, and their count into `written`.
 * Header, Register, Discover, Init, then cycles, then Terminate: after the last part the bytes of
 * all parts, in order, are one whole record.
 *
 * No call asks for memory. Each pointer is to live objects, also one to no items; no two pointers
 * of a call overlap; and no call keeps a pointer. While a call runs, no other thread uses what it
 * may change, or changes what it reads. */
#ifndef DET_EXEC_DET_RECORD_H
#define DET_EXEC_DET_RECORD_H

#include "det/exec/det_types.h"

#ifdef __cplusplus
extern "C" {
#endif

/* What a call returns. The place is checked first, then the values, then the room. If it isn't
 * DET_RECORD_DONE, nothing is changed. */
enum {
  DET_RECORD_DONE = 0,
  DET_RECORD_MISPLACED = 1,    /* this may not come now */
  DET_RECORD_OUT_OF_RANGE = 2, /* a value or a count isn't in its range */
  DET_RECORD_NO_ROOM = 3       /* there are more bytes than `out` has room for */
};

/* Begins a record in format 1 or 2. False for any other number, and nothing is changed. */
bool det_record_new(DetRecord *record, uint8_t format);

/* The header. At most 16 parameters and 256 events. In format 1 the policy of each event is 0. */
uint8_t det_record_header(DetRecord *record, const DetProfile *profile, const int64_t *params,
                          size_t param_count, const DetEvent *events, size_t event_count,
                          uint8_t *out, size_t room, size_t *written);

/* The parts of the first two activations. */
uint8_t det_record_register(DetRecord *record, uint8_t *out, size_t room, size_t *written);
uint8_t det_record_discover(DetRecord *record, uint8_t *out, size_t room, size_t *written);

/* The third activation, with the initial elements, at most 65,536. Their draws are ignored. */
uint8_t det_record_init(DetRecord *record, const DetElement *elements, size_t count, uint8_t *out,
                        size_t room, size_t *written);

/* A cycle that finished: its time, the samples that arrived in it, at most 4,096, the elements
 * after it, and its output of at most 1,048,576 bytes. In format 1 draws are ignored. After
 * 1,000,000 cycles one more is misplaced. */
uint8_t det_record_finished(DetRecord *record, const DetTime *time, const DetSample *samples,
                            size_t sample_count, const DetElement *elements, size_t count,
                            const uint8_t *output, size_t output_count, uint8_t *out, size_t room,
                            size_t *written);

/* A cycle that was refused. */
uint8_t det_record_refused(DetRecord *record, const DetTime *time, const DetSample *samples,
                           size_t sample_count, const DetRefusal *refusal, uint8_t *out,
                           size_t room, size_t *written);

/* The last part. */
uint8_t det_record_terminate(DetRecord *record, uint8_t *out, size_t room, size_t *written);

/* How far a cycle is written that is written in several calls: the record when the cycle was
 * opened, and the number of elements to come. Only the calls fill it. */
typedef struct DetRun {
  DetRecord state;
  uint32_t left;
} DetRun;

/* Opens a cycle that finished with `element_count` elements. The bytes of this call, of one call
 * for each element and of det_run_close, in order, are the frame that det_record_finished writes of
 * the same values. The record stays where it is until the cycle is closed. */
uint8_t det_run_open(DetRun *run, const DetRecord *record, const DetTime *time,
                     const DetSample *samples, size_t sample_count, uint32_t element_count,
                     uint8_t *out, size_t room, size_t *written);

/* Puts the next element, of at most 64 bytes. It is misplaced if all elements are put. */
uint8_t det_run_element(DetRun *run, const uint8_t *bytes, size_t count, uint32_t draws,
                        uint8_t *out, size_t room, size_t *written);

/* Passes over the next `elements` elements, whose bytes the caller put itself: those for which
 * det_are_elements of det_reading.h returns true, in the record's format. They come after the bytes
 * of the calls before. It is misplaced if fewer are left. */
uint8_t det_run_elements(DetRun *run, uint32_t elements);

/* Closes a cycle, and moves the record on. It is misplaced if an element is left out, or if the
 * record has moved since the cycle was opened. */
uint8_t det_run_close(const DetRun *run, DetRecord *record, const uint8_t *output,
                      size_t output_count, uint8_t *out, size_t room, size_t *written);

#ifdef __cplusplus
}
#endif

#endif
