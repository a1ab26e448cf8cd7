/*
 * Frames without octets, memory in reserve, and bursts. Two paths, and two cells, get the same random calls: one gets frames with octets,
 * and each call by its own function; the other gets some frames without octets, and some calls in bursts. Every answer has to be equal.
 * `bare CALLS SEED` makes about that many calls. It is linked with --wrap=malloc, so that it can let the memory run out.
 */
#include <stdio.h>
#include <stdlib.h>
#include <string.h>

#include "wf.h"

enum { STATIONS = 4, CHUNK = 24, RESERVED = 20 };

static int failed, is_empty;
static unsigned long allocated;
static uint64_t random_state;

/* The numbers of the open exchanges. */
static uint64_t opened[64];
static unsigned open_count;

void *__real_malloc(size_t size);
void *__wrap_malloc(size_t size);

void *__wrap_malloc(size_t size) {
  if (is_empty) return NULL;
  allocated++;
  return __real_malloc(size);
}

static void want(int holds, const char *what) {
  if (holds) return;
  printf("bare: not so: %s\n", what);
  failed++;
}

static uint32_t below(uint32_t bound) {
  random_state = random_state * 6364136223846793005u + 1442695040888963407u;
  return (uint32_t)(random_state >> 33) % bound;
}

static struct wf_settings some_settings(uint32_t calls) {
  struct wf_settings settings = {0};
  wf_settings_standard(&settings);
  settings.stations = STATIONS;
  settings.flows = 16;
  settings.room = 60;
  settings.limit = 40;
  settings.charge = 5000;
  settings.legacy = 2;
  settings.calls = calls;
  return settings;
}

/* Notes which exchange a call has opened or ended. */
static void note(const struct wf_call *call, const struct wf_reply *reply) {
  unsigned i;
  if (reply->kind == WF_KIND_SEND) opened[open_count++] = reply->exchange;
  if (reply->kind != WF_KIND_DONE) return;
  for (i = 0; i < open_count; i++) {
    if (opened[i] == call->exchange) opened[i] = opened[--open_count];
  }
}

static struct wf_call some_call(void) {
  static const uint8_t KINDS[] = {WF_CALL_JOIN,    WF_CALL_LEAVE,   WF_CALL_RATE,    WF_CALL_TICK, WF_CALL_TICK, WF_CALL_ENQUEUE,
                                  WF_CALL_ENQUEUE, WF_CALL_ENQUEUE, WF_CALL_ENQUEUE, WF_CALL_PULL, WF_CALL_PULL, WF_CALL_DONE,
                                  WF_CALL_DONE,    WF_CALL_SLEEP,   WF_CALL_WAKE,    WF_CALL_POLL, WF_CALL_RX,   WF_CALL_REAP,
                                  WF_CALL_REAP,    WF_CALL_REAP,    WF_CALL_AMPDU,   WF_CALL_STOP, WF_CALL_START, WF_CALL_START,
                                  WF_CALL_UNSENT,  WF_CALL_GIVEUP,  WF_CALL_FLUSH,   WF_CALL_OFFLOAD, WF_CALL_WEIGHT,
                                  WF_CALL_PLAIN,   WF_CALL_HOLD,    WF_CALL_BEGIN,   WF_CALL_BEGIN, WF_CALL_FREE, WF_CALL_CEASE};
  struct wf_call call = {0};
  call.kind = KINDS[below(sizeof KINDS)];
  if (call.kind == WF_CALL_LEAVE && below(8)) call.kind = WF_CALL_JOIN;
  call.station = (uint16_t)below(STATIONS + (below(10) == 0));
  call.window = (uint16_t)(below(30) ? 64 : below(300));
  call.start = (uint16_t)below(4096);
  call.exponent = (uint8_t)below(4);
  call.weight = (uint8_t)(1 + below(4));
  call.mcs = (uint8_t)below(8);
  call.mhz = 20;
  call.form = (uint8_t)(below(3) ? WF_FORM_HT : WF_FORM_OFDM + below(2));
  call.speed = (uint8_t)(call.form == WF_FORM_OFDM ? 6 << below(4) : 2 << below(2));
  call.by = below(3000);
  call.tid = (uint8_t)below(8 + (below(20) == 0));
  call.flow = below(40);
  call.length = (uint16_t)(1 + below(WF_GREATEST_BODY));
  call.class_ = (uint8_t)below(4);
  call.exchange = open_count && below(20) ? opened[below(open_count)] : below(1000);
  call.air = call.kind == WF_CALL_RX ? 1 + below(4000) : 0;
  if (call.kind == WF_CALL_PULL && below(2)) call.frames = below(5), call.air = below(2000);
  call.octets = 4000 + below(10000);
  call.index = (uint16_t)below(4);
  return call;
}

/* Enqueues the frame of a call, with its octets or without them. */
static int32_t enqueue(struct wf_path *path, const struct wf_call *call, int is_bare, struct wf_reply *reply) {
  static const uint8_t body[WF_GREATEST_BODY];
  struct wf_packet packet = {0};
  struct wf_bare bare = {0};
  if (is_bare) {
    bare.flow = call->flow;
    bare.length = call->length;
    bare.tid = call->tid;
    return wf_path_enqueue_bare(path, call->station, &bare, reply);
  }
  packet.body = body;
  packet.length = call->length;
  packet.flow = call->flow;
  packet.tid = call->tid;
  return wf_path_enqueue(path, call->station, &packet, reply);
}

/* Takes out a finished frame. Its octets, if it has any, go to the front of a buffer. */
static int32_t reap(struct wf_path *path, struct wf_reply *reply) {
  static uint8_t body[WF_GREATEST_BODY];
  struct wf_taken taken = {0};
  int32_t code;
  memset(body, 0xee, sizeof body);
  code = wf_path_reap(path, reply, &taken, body, sizeof body);
  if (code == WF_OK) want(body[0] == (taken.bare ? 0xee : 0), "a reap writes the octets that the frame has");
  return code;
}

/* Sets a rate of HT, OFDM or DSSS. */
static int32_t rate(struct wf_path *path, const struct wf_call *call, struct wf_reply *reply) {
  switch (call->form) {
    case WF_FORM_OFDM: return wf_path_rate_ofdm(path, call->station, call->speed, reply);
    case WF_FORM_DSSS: return wf_path_rate_dsss(path, call->station, call->speed, reply);
    default: return wf_path_rate_ht(path, call->station, call->mcs, call->mhz, call->short_guard, reply);
  }
}

/* Makes a call of a path by its own function. */
static int32_t single(struct wf_path *path, const struct wf_call *call, int is_bare, struct wf_reply *reply) {
  static struct wf_frames frames;
  switch (call->kind) {
    case WF_CALL_JOIN: return wf_path_join(path, call->station, call->window, call->start, call->exponent, call->weight, reply);
    case WF_CALL_LEAVE: return wf_path_leave(path, call->station, reply);
    case WF_CALL_RATE: return rate(path, call, reply);
    case WF_CALL_TICK: return wf_path_tick(path, call->by, reply);
    case WF_CALL_ENQUEUE: return enqueue(path, call, is_bare, reply);
    case WF_CALL_PULL: return wf_path_pull_limited(path, call->class_, call->frames, call->air, reply, &frames);
    case WF_CALL_DONE: return wf_path_done_lost(path, call->exchange, call->air, reply);
    case WF_CALL_SLEEP: return wf_path_sleep(path, call->station, reply);
    case WF_CALL_WAKE: return wf_path_wake(path, call->station, reply);
    case WF_CALL_POLL: return wf_path_poll(path, call->station, reply);
    case WF_CALL_RX: return wf_path_rx(path, call->station, call->class_, call->air, reply);
    case WF_CALL_AMPDU: return wf_path_ampdu(path, call->station, call->octets, reply);
    case WF_CALL_STOP: return wf_path_stop(path, call->station, reply);
    case WF_CALL_START: return wf_path_start(path, call->station, reply);
    case WF_CALL_UNSENT: return wf_path_unsent(path, call->exchange, call->index, reply);
    case WF_CALL_GIVEUP: return wf_path_give_up(path, call->exchange, call->index, reply);
    case WF_CALL_FLUSH: return wf_path_flush(path, call->station, call->tid, reply);
    case WF_CALL_OFFLOAD: return wf_path_join_offload(path, call->station, call->exponent, call->weight, reply);
    case WF_CALL_WEIGHT: return wf_path_weight(path, call->station, call->weight, reply);
    case WF_CALL_PLAIN: return wf_path_plain(path, call->station, call->start, call->exponent, call->weight, reply);
    case WF_CALL_HOLD: return wf_path_hold(path, call->station, call->tid, reply);
    case WF_CALL_BEGIN: return wf_path_begin(path, call->station, call->tid, call->window, reply);
    case WF_CALL_FREE: return wf_path_free_tid(path, call->station, call->tid, reply);
    case WF_CALL_CEASE: return wf_path_cease(path, call->station, call->tid, reply);
    default: return reap(path, reply);
  }
}

/* Compares the first transmission of an exchange of both paths: a frame without octets has the header of the one with them. Returns the
 * sequence number. */
static uint16_t compare_transmission(const struct wf_path *whole, const struct wf_path *mixed, uint64_t exchange) {
  uint8_t one[WF_GREATEST_MPDU] = {0}, other[WF_GREATEST_MPDU] = {0}, header[WF_HEADER] = {0};
  size_t size = 0, other_size = 0;
  int32_t code = wf_path_mpdu(whole, exchange, 0, one, sizeof one, &size);
  int32_t found = wf_path_mpdu(mixed, exchange, 0, other, sizeof other, &other_size);
  if (code == WF_OK && found == WF_NO_BODY) {
    want(other_size == 0 && other[0] == 0, "WF_NO_BODY writes nothing");
    want(wf_path_header(mixed, exchange, 0, header) == WF_OK && memcmp(header, one, WF_HEADER) == 0, "the header without octets");
  } else {
    want(code == found && size == other_size && memcmp(one, other, size) == 0, "equal transmissions");
  }
  return (uint16_t)((one[size == 20 ? 18 : 22] | one[size == 20 ? 19 : 23] << 8) >> 4);
}

/* Ends the same exchange of both paths by the same bits. */
static void end_both(struct wf_path *whole, struct wf_path *mixed) {
  struct wf_call call = some_call();
  struct wf_reply one = {0}, other = {0};
  uint64_t exchange = call.exchange;
  uint8_t bits[32];
  uint16_t start = compare_transmission(whole, mixed, exchange);
  int i;
  for (i = 0; i < 32; i++) bits[i] = (uint8_t)(below(256) | below(256));
  want(wf_path_done_bits(whole, exchange, start, bits, 0, &one) == wf_path_done_bits(mixed, exchange, start, bits, 0, &other), "a done");
  want(memcmp(&one, &other, sizeof one) == 0, "the answer to a done");
  note(&call, &one);
}

static void compare_paths(unsigned long calls) {
  struct wf_path whole = {0}, mixed = {0};
  struct wf_settings settings = some_settings(1);
  struct wf_tally one = {0}, other = {0};
  unsigned long done;
  want(wf_path_make(&whole, &settings) == WF_OK && wf_path_make(&mixed, &settings) == WF_OK, "two paths");
  want(wf_path_reserve(&mixed, RESERVED) == WF_OK, "a reserve");
  for (done = 0; done < calls; done += CHUNK) {
    struct wf_call chunk[CHUNK];
    struct wf_reply wanted[CHUNK] = {{0}}, found[CHUNK] = {{0}};
    size_t i, made = 0;
    int in_burst = below(2) == 0;
    for (i = 0; i < CHUNK; i++) {
      chunk[i] = some_call();
      single(&whole, &chunk[i], 0, &wanted[i]);
      note(&chunk[i], &wanted[i]);
      if (!in_burst) single(&mixed, &chunk[i], below(3) > 0, &found[i]);
    }
    if (in_burst) want(wf_path_burst(&mixed, chunk, CHUNK, found, CHUNK, &made) == WF_OK && made == CHUNK, "a burst");
    want(memcmp(wanted, found, sizeof wanted) == 0, "equal answers of two paths");
    if (open_count) end_both(&whole, &mixed);
  }
  wf_path_tally(&whole, &one);
  wf_path_tally(&mixed, &other);
  want(memcmp(&one, &other, sizeof one) == 0 && wf_path_now(&whole) == wf_path_now(&mixed), "equal paths");
  want(wf_path_exchanges(&whole) > calls / 100 && one.acked > 0, "some frames are sent");
  wf_path_free(&whole);
  wf_path_free(&mixed);
}

static int32_t ask(struct wf_cell *cell, const struct wf_call *call, struct wf_reply *reply) {
  struct wf_bare bare = {0};
  struct wf_taken taken = {0};
  bare.flow = call->flow;
  bare.length = call->length;
  bare.tid = call->tid;
  if (call->kind == WF_CALL_ENQUEUE) return wf_cell_enqueue_bare(cell, 7, call->station, &bare, reply);
  if (call->kind == WF_CALL_REAP) return wf_cell_reap(cell, 7, reply, &taken, NULL, 0);
  return wf_cell_ask(cell, 7, call, reply);
}

static void compare_histories(const struct wf_cell *one, const struct wf_cell *other) {
  uint64_t place;
  want(wf_cell_len(one) == wf_cell_len(other), "equal lengths of two histories");
  for (place = 0; place < wf_cell_len(one) && !failed; place++) {
    struct wf_call first = {0}, second = {0};
    uint32_t caller = 0, of_second = 0;
    want(wf_cell_entry(one, place, &caller, &first) == WF_OK && wf_cell_entry(other, place, &of_second, &second) == WF_OK, "two entries");
    want(caller == of_second && memcmp(&first, &second, sizeof first) == 0, "equal entries");
  }
}

static void compare_cells(unsigned long calls) {
  struct wf_cell one = {0}, other = {0};
  struct wf_settings settings = some_settings((uint32_t)calls + CHUNK);
  unsigned long done;
  open_count = 0;
  want(wf_cell_make(&one, &settings) == WF_OK && wf_cell_make(&other, &settings) == WF_OK, "two cells");
  for (done = 0; done < calls; done += CHUNK) {
    struct wf_call chunk[CHUNK];
    struct wf_reply wanted[CHUNK] = {{0}}, found[CHUNK] = {{0}};
    size_t i, made = 0;
    for (i = 0; i < CHUNK; i++) {
      chunk[i] = some_call();
      if (below(4) == 0) chunk[i].kind = below(3) ? WF_CALL_ARRIVE : WF_CALL_ANSWER;
      chunk[i].heard = (uint8_t)below(2);
      ask(&one, &chunk[i], &wanted[i]);
      note(&chunk[i], &wanted[i]);
    }
    want(wf_cell_burst(&other, 7, chunk, CHUNK, found, CHUNK, &made) == WF_OK && made == CHUNK, "a burst of a cell");
    want(memcmp(wanted, found, sizeof wanted) == 0, "equal answers of two cells");
  }
  compare_histories(&one, &other);
  wf_cell_free(&one);
  wf_cell_free(&other);
}

/* Enqueues frames without octets until one is refused, and returns how many were accepted. */
static int enqueue_all(struct wf_path *path, int32_t last) {
  struct wf_call call = {0};
  struct wf_reply reply = {0}, before;
  int32_t code;
  int count = 0;
  call.kind = WF_CALL_ENQUEUE;
  call.length = 1500;
  for (;; count++) {
    before = reply;
    code = enqueue(path, &call, 1, &reply);
    if (code) break;
  }
  want(code == last, "the code of the first frame that is not accepted");
  if (code == WF_NO_MEMORY) want(memcmp(&reply, &before, sizeof reply) == 0, "WF_NO_MEMORY leaves the reply unchanged");
  return count;
}

/* Makes the station leave and join again, and reaps its frames: all memory goes back. */
static void empty(struct wf_path *path) {
  struct wf_reply reply = {0};
  struct wf_taken taken = {0};
  if (wf_path_live(path, 0)) want(wf_path_leave(path, 0, &reply) == WF_OK, "a leave");
  want(wf_path_join(path, 0, 64, 0, 3, 1, &reply) == WF_OK, "a join");
  while (wf_path_reap(path, &reply, &taken, NULL, 0) == WF_OK) want(taken.bare == 1 && taken.length == 1500, "a frame without octets");
}

/* The memory runs out: the reserve can still be used, also after frames were reaped. */
static void run_out(void) {
  struct wf_path path = {0};
  struct wf_settings settings = some_settings(1);
  struct wf_call call = {0};
  struct wf_reply reply = {0};
  unsigned long before;
  size_t made = 7;
  int round;
  want(wf_path_make(&path, &settings) == WF_OK && wf_path_reserve(&path, RESERVED) == WF_OK, "a path with a reserve");
  empty(&path);
  is_empty = 1;
  want(wf_path_reserve(&path, RESERVED + 1) == WF_NO_MEMORY, "no larger reserve");
  want(wf_path_reserve(&path, RESERVED) == WF_OK, "the same reserve");
  for (round = 0; round < 5; round++) {
    want(enqueue_all(&path, WF_NO_MEMORY) == RESERVED, "as many frames as are reserved");
    empty(&path);
  }
  enqueue_all(&path, WF_NO_MEMORY);
  call.kind = WF_CALL_ENQUEUE;
  call.length = 1;
  want(wf_path_burst(&path, &call, 1, &reply, 1, &made) == WF_NO_MEMORY && made == 0, "a burst without memory");
  is_empty = 0;
  empty(&path);
  before = allocated;
  want(wf_path_reserve(&path, settings.room + 1) == WF_OK && allocated - before > settings.room - RESERVED, "a larger reserve");
  before = allocated;
  want(enqueue_all(&path, WF_ROOM) == (int)settings.room && allocated == before, "the room is full, and nothing was allocated");
  empty(&path);
  wf_path_free(&path);
}

int main(int count, char **words) {
  unsigned long calls = count > 1 ? strtoul(words[1], NULL, 10) : 100000;
  random_state = count > 2 ? strtoul(words[2], NULL, 10) : 1;
  run_out();
  compare_paths(calls);
  compare_cells(calls / 2);
  if (!failed) printf("bare: %lu calls of two paths and %lu of two cells have equal answers\n", calls, calls / 2);
  return failed != 0;
}
