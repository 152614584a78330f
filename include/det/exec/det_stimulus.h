/* A stimulus, read line by line: the exports of the static library det_stimulus_c, which are
 * proved.
 *
 * The caller reads the text in pieces of any size. Each step gets the bytes that no earlier step
 * took: at least 129 of them, or all that are left. docs/FORMATS.md, "Stimulus", has the lines.
 *
 * Every call may be given any bytes and any struct. It takes no memory and keeps no pointer. Each
 * pointer is to live objects, also one to no items, and no two pointers of a call overlap. While a
 * call runs, no other thread uses what it may change, or changes what it reads. */
#ifndef DET_EXEC_DET_STIMULUS_H
#define DET_EXEC_DET_STIMULUS_H

#include "det/exec/det_types.h"

#ifdef __cplusplus
extern "C" {
#endif

/* How far a stimulus was read: its number of good lines, of its blocks, and of the samples of the
 * last one. Only the calls fill it; a copy of it is the same place. */
typedef struct DetStimulus {
  uint64_t lines;
  uint32_t blocks;
  uint16_t samples, events;
  uint8_t stage;
} DetStimulus;

/* What a step found. */
enum {
  DET_STIMULUS_MORE = 0,      /* no whole line: more bytes are needed, or it is the end */
  DET_STIMULUS_BEGIN = 1,     /* the line `stim 1` */
  DET_STIMULUS_CYCLE = 2,     /* a block begins, with `time`; the block before it is complete */
  DET_STIMULUS_SAMPLE = 3,    /* `sample` arrives in the block */
  DET_STIMULUS_TERMINATE = 4, /* the last block is complete, if there is one */
  DET_STIMULUS_BAD = 5        /* line `lines` + 1 is bad */
};

typedef struct DetStimulusStep {
  DetTime time;
  DetSample sample;
  size_t taken; /* bytes of the line with its LF; 0 with MORE and BAD */
} DetStimulusStep;

/* Begins a stimulus, for a profile with this number of events. */
void det_stimulus_new(DetStimulus *stimulus, uint16_t events);

/* Takes the first line of the bytes if it is whole and good, and looks at no more than 129 of them.
 * With MORE and BAD the stimulus stays as it was. After BAD the same bytes give BAD again. */
uint8_t det_stimulus_step(DetStimulus *stimulus, const uint8_t *bytes, size_t count,
                          DetStimulusStep *step);

/* Whether the lines that were taken are a whole stimulus, if after the last step, which was MORE or
 * BAD, `left` bytes are left and no more come. If they aren't, `line` becomes the bad line. */
bool det_stimulus_end(const DetStimulus *stimulus, size_t left, uint64_t *line);

/* What may come in place of a bad line: the hints of det. T, E and V are a time, an event and a
 * value, as docs/FORMATS.md has them. */
enum {
  DET_WANTED_NOTHING = 0,     /* nothing else: a good line comes next */
  DET_WANTED_FIRST_LINE = 1,  /* `stim 1` */
  DET_WANTED_FIRST_BLOCK = 2, /* `cycle T`, `cycle -` or `terminate` */
  DET_WANTED_LINE = 3,        /* one of these, or `sample E V` */
  DET_WANTED_NO_MORE = 4,     /* nothing after `terminate` */
  DET_WANTED_SHORT_LINE = 5,  /* a line of at most 128 bytes */
  DET_WANTED_NO_RETURN = 6,   /* no carriage return at the end of a line */
  DET_WANTED_TIME = 7,        /* a T in its range */
  DET_WANTED_EVENT = 8,       /* an E below the number of events */
  DET_WANTED_VALUE = 9,       /* a V in its range */
  DET_WANTED_FEW_SAMPLES = 10, /* at most 4,096 samples in a cycle */
  DET_WANTED_LINE_FEED = 11   /* a line feed: all bytes are a good line without one */
};

/* What may come where the bytes begin. As in a step, they are those that no step took: at least 129
 * of them, or all that are left. */
uint8_t det_stimulus_wanted(const DetStimulus *stimulus, const uint8_t *bytes, size_t count);

#ifdef __cplusplus
}
#endif

#endif
