/* A deterministic client for C: the exports of the static library det_client_c, which are proved.
 *
 * Memory is the caller's. Each pointer is to one live object, or to as many as a count says, and no
 * two pointers of a call overlap. While a call runs, no other thread uses what the call may change,
 * or changes what it reads. No call keeps a pointer, takes memory, waits or ends the process. Only
 * the calls fill a struct; a copy of it is the same client, stream or window. A call that returns
 * false leaves all that it was given as it was, except det_block. */
#ifndef DET_EXEC_DET_CLIENT_H
#define DET_EXEC_DET_CLIENT_H

#include <stdbool.h>
#include <stddef.h>
#include <stdint.h>

#ifdef __cplusplus
extern "C" {
#endif

/* A stream of random numbers, and how many were drawn from it. */
typedef struct DetRandom {
  uint64_t state[4];
  uint64_t draws;
} DetRandom;

/* A client: its cycle time and present time in nanoseconds, its seed and its own stream. */
typedef struct DetClient {
  uint64_t cycle_time, time, seed;
  DetRandom own;
  uint32_t cycle;
  uint8_t last;
  bool has_time;
} DetClient;

/* What the keys of the elements of one pass share. */
typedef struct DetPassKeys {
  uint64_t shared;
  uint8_t pass;
} DetPassKeys;

/* The window of an event. Policy 0 shows the last samples of all earlier cycles, policy 1 those of
 * the cycle just before. */
typedef struct DetWindow {
  uint16_t capacity, seen, arriving;
  uint8_t policy;
} DetWindow;

/* ---- The client ---- */

/* Makes a new client, with the seed 0. False if the cycle time isn't 1 to 2^63 - 1 nanoseconds. */
bool det_client_new(DetClient *client, uint64_t cycle_time);

/* Finds what the process does next: 0 register services, 1 discover services, 2 initialize, 3 run a
 * cycle, 4 terminate. A cycle has a time if `has_time`. With `stop`, and in each later call, the
 * process terminates. False if 1,000,000 cycles ran and this call has no `stop`, even if an earlier
 * one had. */
bool det_client_wait(DetClient *client, bool stop, bool has_time, uint64_t time,
                     uint8_t *activation);

/* The time of the present cycle. False if it has none, before the first cycle, and if the process
 * terminates. */
bool det_client_time(const DetClient *client, uint64_t *time);

/* The time of the next cycle: that of the present one plus the cycle time. False if
 * det_client_time returns false, or if the sum exceeds 2^64 - 1. */
bool det_client_next_time(const DetClient *client, uint64_t *time);

/* Sets the seed of all later random numbers. The client's own stream begins again. */
void det_client_set_seed(DetClient *client, uint64_t seed);

/* Draws the next random number of the client's own stream, which begins again with activations 2
 * and 3. */
uint64_t det_client_random(DetClient *client);

/* The present seed. */
uint64_t det_client_seed(const DetClient *client);

/* The number of the present cycle, counted from 1; 0 before the first one. If the process
 * terminates, that of the last one. */
uint32_t det_client_cycle(const DetClient *client);

/* ---- Random numbers of elements ---- */

/* The key of an element in a pass of a cycle. Pass 255 of element 0 is the client's own stream. */
uint64_t det_random_key(uint64_t seed, uint32_t cycle, uint8_t pass, uint32_t element);

/* The stream of a key, from its start. */
void det_random_of_key(DetRandom *random, uint64_t key);

/* Draws the next random number of a stream. The count of draws stays at 2^64 - 1, and the numbers
 * go on. */
uint64_t det_random_next(DetRandom *random);

/* What the keys of one pass share. */
void det_pass_keys(DetPassKeys *keys, uint64_t seed, uint32_t cycle, uint8_t pass);

/* The stream of an element in the pass of these keys, from its start. */
void det_random_in_pass(DetRandom *random, const DetPassKeys *keys, uint32_t element);

/* ---- Blocks of elements ---- */

/* Block `number` of a container of `len` elements: the elements from `begin` up to `end`, at most
 * 256. False if the container has no such block. Then both are `len`, and no later block exists. */
bool det_block(uint32_t len, uint32_t number, uint32_t *begin, uint32_t *end);

/* How many blocks a container of `len` elements has. A block has 64 elements if there are at most
 * 4,096, else 256; the last one has the rest. */
uint32_t det_block_count(uint32_t len);

/* ---- Windows of events ----
 *
 * `places` has room for twice the capacity, and `count` says for how many it has. The first `seen`
 * are the samples that the window shows, oldest first. Arriving samples are after the first
 * `capacity`. No call changes the places after twice the capacity. */

/* Makes an empty window. False if the capacity isn't 1 to 1,024 or the policy isn't 0 or 1. */
bool det_window_new(DetWindow *window, uint16_t capacity, uint8_t policy);

/* A sample arrives, and is shown after the next turn. False if it isn't -10^12 to 10^12, or if
 * window and places don't fit. */
bool det_window_arrive(DetWindow *window, int64_t *places, size_t count, int64_t value);

/* A cycle ends. From now on the window shows what policy and capacity select. False if window and
 * places don't fit. */
bool det_window_turn(DetWindow *window, int64_t *places, size_t count);

#ifdef __cplusplus
}
#endif

#endif
