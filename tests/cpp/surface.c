/* The C surface from C: a client, a pass, a window and a record, without a line of C++. */
#include <stdio.h>
#include <string.h>

#include "det/exec/det_client.h"
#include "det/exec/det_record.h"

static int failed = 0;

static void holds(bool condition, const char *what) {
  if (condition) return;
  failed = 1;
  printf("FAILED surface: %s\n", what);
}

/* Appends a part's bytes; `room` says what is left. */
typedef struct Bytes {
  uint8_t kept[400];
  size_t count;
} Bytes;

static void keep(Bytes *bytes, uint8_t answer, size_t written, const char *what) {
  holds(answer == DET_RECORD_DONE, what);
  if (answer == DET_RECORD_DONE) bytes->count += written;
}

static void a_client(void) {
  DetClient client;
  uint8_t activation = 9;
  uint64_t time = 0;
  holds(!det_client_new(&client, 0), "a cycle time of 0 is refused");
  holds(det_client_new(&client, 10), "a client is made");
  det_client_set_seed(&client, 7);
  for (unsigned k = 0; k < 4; ++k) {
    holds(det_client_wait(&client, false, true, 5, &activation) && activation == k, "activation");
  }
  holds(det_client_time(&client, &time) && time == 5, "the time");
  holds(det_client_next_time(&client, &time) && time == 15, "the next time");
  holds(det_client_seed(&client) == 7 && det_client_cycle(&client) == 1, "seed and cycle");
  DetRandom own;
  det_random_of_key(&own, det_random_key(7, 1, 255, 0));
  holds(det_client_random(&client) == det_random_next(&own), "the own stream is that of its key");
}

static void a_pass(void) {
  DetPassKeys keys;
  uint32_t begin = 0, end = 0, number = 0, elements = 0;
  det_pass_keys(&keys, 7, 1, 0);
  while (det_block(130, number++, &begin, &end)) {
    for (uint32_t i = begin; i < end; ++i, ++elements) {
      DetRandom random, same;
      det_random_in_pass(&random, &keys, i);
      det_random_of_key(&same, det_random_key(7, 1, 0, i));
      holds(det_random_next(&random) == det_random_next(&same), "the word of an element");
    }
  }
  holds(elements == 130 && number == 4, "three blocks of 130 elements");
  holds(det_block_count(130) == 3, "their count");
}

static void a_window(void) {
  DetWindow window;
  int64_t places[4];
  holds(det_window_new(&window, 2, 0), "a window is made");
  for (int64_t k = 1; k <= 3; ++k) holds(det_window_arrive(&window, places, 4, k), "arrives");
  holds(window.seen == 0 && det_window_turn(&window, places, 4), "the window turns");
  holds(window.seen == 2 && places[0] == 2 && places[1] == 3, "the window shows the last two");
}

static void a_record(void) {
  DetRecord record;
  Bytes bytes = {{0}, 0};
  size_t written = 0;
  const DetProfile profile = {0, 10000000, 1};
  const int64_t params[2] = {4, 2};
  DetEvent event = {{0}, 2, 1, 0};
  DetElement elements[4];
  event.name[0] = 'x';
  memset(elements, 0, sizeof elements);
  for (int k = 0; k < 4; ++k) elements[k].len = 8;
#define OUT bytes.kept + bytes.count, sizeof bytes.kept - bytes.count, &written
  holds(!det_record_new(&record, 3) && det_record_new(&record, 2), "formats are 1 and 2");
  holds(det_record_register(&record, OUT) == DET_RECORD_MISPLACED, "Register before the header");
  holds(det_record_header(&record, &profile, params, 2, &event, 1, bytes.kept, 10, &written) ==
            DET_RECORD_NO_ROOM,
        "ten bytes are no room for a header");
  uint8_t answer = det_record_header(&record, &profile, params, 2, &event, 1, OUT);
  keep(&bytes, answer, written, "header");
  answer = det_record_register(&record, OUT);
  keep(&bytes, answer, written, "register");
  answer = det_record_discover(&record, OUT);
  keep(&bytes, answer, written, "discover");
  answer = det_record_init(&record, elements, 4, OUT);
  keep(&bytes, answer, written, "init");
  answer = det_record_terminate(&record, OUT);
  keep(&bytes, answer, written, "terminate");
#undef OUT
  /* The worked record of docs/FORMATS.md has 99 bytes and ends with 05. */
  holds(bytes.count == 99 && memcmp(bytes.kept, "DETREC\0\2", 8) == 0 && bytes.kept[98] == 5,
        "the worked record");
}

int main(void) {
  a_client();
  a_pass();
  a_window();
  a_record();
  if (!failed) printf("ok surface: a client, a pass, a window and a record from C\n");
  return failed;
}
