/* The structs that C and the proved libraries pass to each other. Each is the struct of that name
 * in the crate c_types. */
#ifndef DET_EXEC_DET_TYPES_H
#define DET_EXEC_DET_TYPES_H

#include <stdbool.h>
#include <stddef.h>
#include <stdint.h>

#ifdef __cplusplus
extern "C" {
#endif

/* ---- parts of a record ---- */

/* What a client and its job are made from, besides parameters and events. The cycle time is 1 to
 * 2^63 - 1 nanoseconds. */
typedef struct DetProfile {
  uint64_t seed, cycle_time;
  uint16_t job;
} DetProfile;

/* An event. Its name is the first `len` bytes of `name`, 1 to 32 of a-z, 0-9 and _. The capacity is
 * 1 to 1,024; the policy is 0 for the last samples and 1 for fresh ones. */
typedef struct DetEvent {
  uint8_t name[32];
  uint16_t capacity;
  uint8_t len, policy;
} DetEvent;

/* A header that was read. Only the first `param_count` parameters and the first `event_count`
 * events count. */
typedef struct DetHeader {
  DetProfile profile;
  int64_t params[16];
  DetEvent events[256];
  uint16_t param_count, event_count;
  uint8_t format; /* 1 or 2 */
} DetHeader;

/* A sample of an event of the header. Events count from 0. The value is -10^12 to 10^12. */
typedef struct DetSample {
  int64_t value;
  uint16_t event;
} DetSample;

/* An element: its first `len` bytes, at most 64, and how many random numbers it drew. */
typedef struct DetElement {
  uint8_t bytes[64];
  uint32_t draws;
  uint8_t len;
} DetElement;

/* A time in nanoseconds, if it is known. */
typedef struct DetTime {
  uint64_t time;
  bool known;
} DetTime;

/* Where a cycle was refused, and the job's code. Phase 0 is prepare, 1 the pool and 2 conclude. In
 * the pool the pass is 0 to 7 and the element 0 to 65,535; in the others both are 0. */
typedef struct DetRefusal {
  uint32_t element, code;
  uint8_t phase, pass;
} DetRefusal;

/* The place of a record that is written or read. Only the calls fill it; a copy of it is the same
 * place. */
typedef struct DetRecord {
  uint32_t cycles;
  uint16_t events;
  uint8_t format, stage;
} DetRecord;

/* A frame that was read, by offsets from its first byte, its tag. They are 0 for parts that it
 * doesn't have. */
typedef struct DetFrame {
  size_t length; /* of the whole frame */
  size_t samples, elements, output;
  DetTime time;
  DetRefusal refusal;
  uint32_t sample_count, element_count, output_count;
  uint8_t tag;    /* 1 Register, 2 Discover, 3 Init, 4 Run, 5 Terminate */
  bool refused;   /* a Run that has a refusal, and neither elements nor output */
  bool has_draws; /* each element is followed by its number of draws */
} DetFrame;

enum {
  DET_REASON_MAGIC = 1,
  DET_REASON_VERSION = 2,
  DET_REASON_RANGE = 3,
  DET_REASON_ORDER = 4,
  DET_REASON_TOO_MANY = 5,
  DET_REASON_TRUNCATED = 6,
  DET_REASON_TRAILING = 7
};

/* The first byte of a record with which no record begins, and the reason. */
typedef struct DetRecordFault {
  uint64_t offset; /* from the first byte of the record */
  uint8_t reason;
} DetRecordFault;

/* What differs first between two records. */
enum {
  DET_PLACE_HEADER = 0,
  DET_PLACE_KIND = 1, /* of frame `number`, counted from 0 */
  DET_PLACE_TIME = 2, /* of cycle `number`, counted from 1, and so on */
  DET_PLACE_SAMPLES = 3,
  DET_PLACE_RESULT = 4,
  DET_PLACE_ELEMENT = 5, /* `element`, counted from 0, after cycle `number` */
  DET_PLACE_OUTPUT = 6
};

typedef struct DetPlace {
  uint32_t number, element;
  uint8_t what;
} DetPlace;

/* ---- manifests ---- */

/* The needs of an initialisation or of a cycle, if they are there. */
typedef struct DetNeeds {
  uint64_t instructions, sequential_begin, sequential_end;
  uint32_t speedup; /* in thousandths */
  bool there;
} DetNeeds;

/* A manifest. Only the first `.._count` items and the first `.._len` bytes count. The job is the
 * text of the key `job`. `job_len` is 65 if that text has more than 64 bytes, as no job's name has.
 * `platform_len` is 0 if the manifest names no platform. */
typedef struct DetManifest {
  uint64_t cycle_time; /* in nanoseconds */
  DetNeeds init_needs, run_needs;
  int64_t params[16];
  DetEvent events[256];
  uint32_t workers;
  uint16_t param_count, event_count;
  uint8_t job[64], platform[64];
  uint8_t job_len, platform_len;
} DetManifest;

/* Why a manifest isn't taken. The last two are the application's to find. */
enum {
  DET_MANIFEST_TOO_LONG = 1, /* more than 65,536 bytes */
  DET_MANIFEST_NOT_TOML = 2,
  DET_MANIFEST_MISSING = 3,         /* `key`, and its event or parameter `number` */
  DET_MANIFEST_WRONG_KIND = 4,      /* the same */
  DET_MANIFEST_OUT_OF_RANGE = 5,    /* the same */
  DET_MANIFEST_UNKNOWN_KEY = 6,     /* `text`, in the table at `key` */
  DET_MANIFEST_DUPLICATE_EVENT = 7, /* event `number` */
  DET_MANIFEST_UNKNOWN_JOB = 8,
  DET_MANIFEST_BAD_PARAMETER = 9 /* parameter `number`, 0 to 255 */
};

/* Keys, in the order in which they are checked. The four keys of a table of needs come after it:
 * instructions, sequential_begin, sequential_end and speedup_thousandths. */
enum {
  DET_KEY_TOP = 0, /* no key, but the table of an unknown key at the top */
  DET_KEY_JOB = 1,
  DET_KEY_CYCLE_TIME = 2,
  DET_KEY_WORKERS = 3,
  DET_KEY_PARAMS = 4,
  DET_KEY_PARAM = 5, /* params.N */
  DET_KEY_EVENT = 6,
  DET_KEY_EVENT_ITEM = 7, /* event.N */
  DET_KEY_EVENT_NAME = 8,
  DET_KEY_EVENT_CAPACITY = 9,
  DET_KEY_EVENT_POLICY = 10,
  DET_KEY_PLATFORM = 11,
  DET_KEY_INIT_NEEDS = 12,
  DET_KEY_RUN_NEEDS = 17
};

/* The fault of a manifest. `text` is an unknown key: its first `text_len` bytes, at most 64. */
typedef struct DetManifestFault {
  uint8_t text[64];
  uint16_t number;
  uint8_t reason, key, text_len;
} DetManifestFault;

/* ---- texts ---- */

/* A text: the first `len` bytes, at most 1,024, with no 0 after them. */
typedef struct DetText {
  uint8_t bytes[1024];
  uint16_t len;
} DetText;

#ifdef __cplusplus
}
#endif

#endif
