/* The texts of answers, verdicts, needs and reports for C: the exports of the static library
 * det_verdict_c, which are proved.
 *
 * Each call makes `text` the text that it names. It may be given any struct: one whose numbers
 * stand for nothing, as an unknown reason, has the empty text. Each line ends with LF.
 * docs/FORMATS.md, "Texts" and "Lines on standard error", has the lines.
 *
 * No call takes memory or keeps a pointer. Each pointer is to one live object, and no two pointers
 * of a call overlap. While a call runs, no other thread uses what it may change, or changes what it
 * reads. */
#ifndef DET_EXEC_DET_VERDICT_H
#define DET_EXEC_DET_VERDICT_H

#include <stdbool.h>
#include <stdint.h>

#include "det/exec/det_types.h"

#ifdef __cplusplus
extern "C" {
#endif

/* ---- answers ---- */

/* What a command ends with: the statuses of det, and one that an application has besides. */
enum {
  DET_STATUS_DONE = 0,
  DET_STATUS_DIFFERS = 1,
  DET_STATUS_BAD_WORDS = 2,
  DET_STATUS_BAD_MANIFEST = 3,
  DET_STATUS_BAD_STIMULUS = 4,
  DET_STATUS_BAD_RECORD = 5,
  DET_STATUS_READ_FAULT = 6,
  DET_STATUS_WRITE_FAULT = 7,
  DET_STATUS_OUT_OF_MEMORY = 8,
  DET_STATUS_JOB_FAULT = 70 /* the application's code broke a rule, or threw */
};

/* The line `bad words`, `read fault`, `write fault` or `out of memory` of its status, and the empty
 * text of any other. */
void det_text_status(uint8_t status, DetText *text);

/* The line of a bad manifest, as `bad manifest: missing event.0.policy`. */
void det_text_bad_manifest(const DetManifestFault *fault, DetText *text);

/* The line `bad stimulus: line N`, where lines count from 1. */
void det_text_bad_stimulus(uint64_t line, DetText *text);

/* The line `bad record: copy K offset O REASON`, where copies count from 0. */
void det_text_bad_record(uint32_t copy, const DetRecordFault *fault, DetText *text);

/* The line `bad record: profile`: no job has the number in the header, or the job refuses its
 * parameters. */
void det_text_bad_profile(DetText *text);

/* ---- verdicts ---- */

/* The line `genuine N` of a record that is what its inputs give. */
void det_text_genuine(uint32_t cycles, DetText *text);

/* The line `departs PLACE` of one that isn't, with the first place of a difference. */
void det_text_departs(const DetPlace *place, DetText *text);

/* ---- manifests ---- */

/* The lines that `needs` prints of a manifest. */
void det_text_needs(const DetManifest *manifest, DetText *text);

/* ---- reports ---- */

/* What was seen of the Run frames of a record. Only the calls fill it; a copy of it has seen the
 * same. The counts stay at 4,294,967,295. */
typedef struct DetReports {
  uint64_t last_time, gap; /* known if `has_last` and `has_gap` */
  DetRefusal refusal;      /* of run `refused_at` */
  uint32_t finished, refused;
  uint32_t refused_at; /* the first refused run, counted from 1, and 0 if there is none */
  bool has_last, has_gap;
} DetReports;

/* Begins: no run was seen. */
void det_reports_new(DetReports *reports);

/* Sees a frame. A Run frame is a run; any other frame changes nothing. */
void det_reports_see(DetReports *reports, const DetFrame *frame);

/* The three lines of reports on the runs seen, in the order of det. */
void det_reports_text(const DetReports *reports, DetText *text);

#ifdef __cplusplus
}
#endif

#endif
