/*
 * The memory that the library requests. malloc, realloc and free are wrapped: they count the requests, their octets and the kept pieces, and
 * refuse the request of a given number. A call requests just what it needs, and keeps all of it; it reports that there is no memory
 * exactly if a request is refused, and then keeps nothing. A frame that is reaped, refused or freed is kept no longer. It is linked with
 * --wrap=malloc, --wrap=realloc and --wrap=free.
 */
#include <stdio.h>
#include <stdlib.h>
#include <string.h>

#include "wf.h"

enum { LENGTH = 1000, RESERVED = 6, CALLER = 7 };

/* The octets before each piece, which hold its size. */
enum { HEAD = 16 };

static int failed, was_refused;
static unsigned long requests, refused;
static size_t octets, kept, start;

static struct wf_path path;
static struct wf_cell cell;
static struct wf_settings settings;

/* The octets of a frame without those of its body. */
static size_t node;

void *__real_malloc(size_t size);
void __real_free(void *old);
void *__wrap_malloc(size_t size);
void *__wrap_realloc(void *old, size_t size);
void __wrap_free(void *old);

/* Returns a new piece, if its request is not refused. */
static char *piece_of(size_t size) {
  char *made;
  if (++requests == refused) {
    was_refused = 1;
    return NULL;
  }
  made = __real_malloc(HEAD + size);
  if (!made) abort();
  memcpy(made, &size, sizeof size);
  kept += size;
  return made + HEAD;
}

void *__wrap_malloc(size_t size) {
  octets += size;
  return piece_of(size);
}

static size_t size_of(void *piece) {
  size_t size;
  memcpy(&size, (char *)piece - HEAD, sizeof size);
  return size;
}

void __wrap_free(void *old) {
  if (!old) return;
  kept -= size_of(old);
  __real_free((char *)old - HEAD);
}

/* A piece grows: only what it gets more is counted. */
void *__wrap_realloc(void *old, size_t size) {
  size_t before = old ? size_of(old) : 0;
  char *made = piece_of(size);
  octets += size - before;
  if (!made || !old) return made;
  memcpy(made, old, size < before ? size : before);
  __wrap_free(old);
  return made;
}

static void want(int holds, const char *call, const char *what) {
  if (holds) return;
  printf("memory: %s: not so: %s\n", call, what);
  failed++;
}

/* Begins to count. The request of this number will be refused; none, if it is 0. */
static void begin(unsigned long number) {
  requests = 0;
  octets = 0;
  start = kept;
  refused = number;
  was_refused = 0;
}

/* Checks the code of the calls since the last count, the octets that they requested and the change in kept pieces; begins to count. */
static void expect(const char *name, int32_t found, int32_t code, size_t requested, long change) {
  long changed = (long)kept - (long)start;
  if (found != code || octets != requested || changed != change) {
    printf("memory: %s: code %d, %zu octets requested, %+ld kept; ", name, (int)found, octets, changed);
    printf("expected code %d, %zu octets, %+ld\n", (int)code, requested, change);
    failed++;
  }
  begin(0);
}

/* Makes a call with each of its requests refused in turn, and then with none refused. It makes `most` requests, of `size` octets
 * together, and keeps all of them. */
static void try_each(const char *name, int32_t (*call)(void), unsigned long most, size_t size) {
  unsigned long number;
  for (number = 1; number <= most; number++) {
    begin(number);
    want(call() == WF_NO_MEMORY && was_refused, name, "a request is refused, so there is no memory");
    want(kept == start, name, "nothing is kept if a request is refused");
  }
  begin(0);
  expect(name, call(), WF_OK, size, (long)size);
}

static int32_t make_path(void) { return wf_path_make(&path, &settings); }

static int32_t reserve(void) { return wf_path_reserve(&path, RESERVED); }

static struct wf_packet some_packet(void) {
  static const uint8_t body[LENGTH];
  struct wf_packet packet = {0};
  packet.body = body;
  packet.length = LENGTH;
  return packet;
}

static struct wf_bare some_bare(void) {
  struct wf_bare bare = {0};
  bare.length = LENGTH;
  return bare;
}

static int32_t enqueue(void) {
  struct wf_packet packet = some_packet();
  struct wf_reply reply = {0};
  return wf_path_enqueue(&path, 0, &packet, &reply);
}

static int32_t enqueue_bare(void) {
  struct wf_bare bare = some_bare();
  struct wf_reply reply = {0};
  return wf_path_enqueue_bare(&path, 0, &bare, &reply);
}

/* Makes one call by a burst, and returns its code or its refusal. */
static int32_t burst(uint8_t kind) {
  struct wf_call call = {0};
  struct wf_reply reply = {0};
  size_t made = 0;
  int32_t code;
  call.kind = kind;
  call.length = LENGTH;
  code = wf_path_burst(&path, &call, 1, &reply, 1, &made);
  return code ? code : reply.refusal;
}

static int32_t enqueue_in_burst(void) { return burst(WF_CALL_ENQUEUE); }

static int32_t reap(void) {
  struct wf_reply reply = {0};
  struct wf_taken taken = {0};
  return wf_path_reap(&path, &reply, &taken, NULL, 0);
}

static void join(void) {
  struct wf_reply reply = {0};
  begin(0);
  expect("wf_path_join", wf_path_join(&path, 0, 64, 0, 3, 1, &reply), WF_OK, 0, 0);
}

/* The frames that the path has are sent, fail, and are dropped when the station leaves. */
static void send_and_leave(void) {
  static struct wf_frames frames;
  struct wf_reply reply = {0};
  begin(0);
  expect("wf_path_pull", wf_path_pull(&path, WF_BE, &reply, &frames), WF_OK, 0, 0);
  expect("wf_path_done_lost", wf_path_done_lost(&path, reply.exchange, 0, &reply), WF_OK, 0, 0);
  expect("wf_path_leave", wf_path_leave(&path, 0, &reply), WF_OK, 0, 0);
}

/* Makes a path or a cell with the request of each number refused, and leaves it made. */
static void make_and_free(const char *name, int32_t (*make)(void), void (*free_it)(void)) {
  unsigned long most;
  size_t size;
  begin(0);
  if (make() != WF_OK) {
    printf("memory: %s: there is memory\n", name);
    exit(1);
  }
  want(kept == octets, name, "it keeps what it requests");
  most = requests;
  size = octets;
  free_it();
  want(kept == start, name, "nothing is kept when it is freed");
  try_each(name, make, most, size);
  expect(name, make(), WF_IN_USE, 0, 0);
}

static void free_path(void) { wf_path_free(&path); }

/* Frames of a path without a reserve: one without octets, one with octets, and one by a burst. */
static void without_reserve(void) {
  long of_node, of_frame;
  join();
  want(enqueue_bare() == WF_OK && requests == 1, "wf_path_enqueue_bare", "it requests one piece of memory");
  node = octets;
  of_node = (long)node;
  of_frame = LENGTH + of_node;
  try_each("wf_path_enqueue_bare", enqueue_bare, 1, node);
  try_each("wf_path_enqueue", enqueue, 2, LENGTH + node);
  try_each("wf_path_burst", enqueue_in_burst, 1, node);
  send_and_leave();
  expect("wf_path_enqueue refused", enqueue(), WF_NO_STATION, LENGTH + node, 0);
  expect("wf_path_enqueue_bare refused", enqueue_bare(), WF_NO_STATION, node, 0);
  expect("an enqueue refused in a burst", enqueue_in_burst(), WF_NO_STATION, node, 0);
  expect("wf_path_reap", reap(), WF_OK, 0, -of_node);
  expect("wf_path_reap", reap(), WF_OK, 0, -of_node);
  expect("wf_path_reap of octets", reap(), WF_OK, 0, -of_frame);
  expect("a reap in a burst", burst(WF_CALL_REAP), WF_OK, 0, -of_node);
}

/* The memory of several frames is requested one by one, after that of their list, which stays if a frame is refused. */
static void fill_reserve(void) {
  size_t list = RESERVED * sizeof(void *);
  begin(1);
  expect("wf_path_reserve without a list", reserve(), WF_NO_MEMORY, list, 0);
  begin(2);
  expect("wf_path_reserve without a frame", reserve(), WF_NO_MEMORY, list + node, (long)list);
  try_each("wf_path_reserve", reserve, RESERVED, RESERVED * node);
}

/* Frames of a path with a reserve, whose memory is used again. A frame with octets requests its own. */
static void with_reserve(void) {
  size_t before = kept;
  int round, count;
  begin(0);
  expect("wf_path_reserve again", reserve(), WF_OK, 0, 0);
  expect("wf_path_reserve of less", wf_path_reserve(&path, 1), WF_OK, 0, 0);
  for (round = 0; round < 3; round++) {
    join();
    expect("wf_path_enqueue", enqueue(), WF_OK, LENGTH + node, LENGTH + (long)node);
    for (count = 0; count < RESERVED; count++) {
      expect("an enqueue from the reserve", count % 2 ? enqueue_bare() : enqueue_in_burst(), WF_OK, 0, 0);
    }
    send_and_leave();
    while (reap() == WF_OK) want(octets == 0, "wf_path_reap", "it requests nothing");
    want(kept == before, "wf_path_reap", "the reserve keeps as much as was reserved");
    begin(0);
    expect("wf_path_enqueue_bare refused", enqueue_bare(), WF_NO_STATION, 0, 0);
    expect("wf_path_enqueue refused", enqueue(), WF_NO_STATION, LENGTH + node, 0);
  }
}

static int32_t make_cell(void) { return wf_cell_make(&cell, &settings); }

static void free_cell(void) { wf_cell_free(&cell); }

static int32_t enqueue_in_cell(void) {
  struct wf_packet packet = some_packet();
  struct wf_reply reply = {0};
  return wf_cell_enqueue(&cell, CALLER, 0, &packet, &reply);
}

static int32_t enqueue_bare_in_cell(void) {
  struct wf_bare bare = some_bare();
  struct wf_reply reply = {0};
  return wf_cell_enqueue_bare(&cell, CALLER, 0, &bare, &reply);
}

/* Makes one call by a burst of the cell, and returns its code or its refusal. */
static int32_t burst_of_cell(uint8_t kind) {
  struct wf_call call = {0};
  struct wf_reply reply = {0};
  size_t made = 0;
  int32_t code;
  call.kind = kind;
  call.window = 64;
  call.exponent = 3;
  call.weight = 1;
  call.length = LENGTH;
  code = wf_cell_burst(&cell, CALLER, &call, 1, &reply, 1, &made);
  return code ? code : reply.refusal;
}

static int32_t enqueue_in_burst_of_cell(void) { return burst_of_cell(WF_CALL_ENQUEUE); }

static int32_t reap_of_cell(void) {
  struct wf_reply reply = {0};
  struct wf_taken taken = {0};
  return wf_cell_reap(&cell, CALLER, &reply, &taken, NULL, 0);
}

static void frames_of_cell(void) {
  long of_node = (long)node, of_frame = LENGTH + of_node;
  begin(0);
  expect("a join of a cell", burst_of_cell(WF_CALL_JOIN), WF_OK, 0, 0);
  try_each("wf_cell_enqueue_bare", enqueue_bare_in_cell, 1, node);
  try_each("wf_cell_enqueue", enqueue_in_cell, 2, LENGTH + node);
  try_each("wf_cell_burst", enqueue_in_burst_of_cell, 1, node);
  expect("a pull of a cell", burst_of_cell(WF_CALL_PULL), WF_IDLE, 0, 0);
  expect("a leave of a cell", burst_of_cell(WF_CALL_LEAVE), WF_OK, 0, 0);
  expect("wf_cell_enqueue refused", enqueue_in_cell(), WF_NO_STATION, LENGTH + node, 0);
  expect("wf_cell_enqueue_bare refused", enqueue_bare_in_cell(), WF_NO_STATION, node, 0);
  expect("wf_cell_reap", reap_of_cell(), WF_OK, 0, -of_node);
  expect("wf_cell_reap of octets", reap_of_cell(), WF_OK, 0, -of_frame);
  expect("a reap in a burst of a cell", burst_of_cell(WF_CALL_REAP), WF_OK, 0, -of_node);
}

int main(void) {
  size_t of_path;
  wf_settings_standard(&settings);
  settings.stations = 4;
  settings.flows = 16;
  settings.calls = 100;
  make_and_free("wf_path_make", make_path, free_path);
  of_path = kept;
  without_reserve();
  fill_reserve();
  with_reserve();
  wf_path_free(&path);
  want(kept == 0, "wf_path_free", "nothing is kept");
  make_and_free("wf_cell_make", make_cell, free_cell);
  frames_of_cell();
  wf_cell_free(&cell);
  want(kept == 0, "wf_cell_free", "nothing is kept");
  if (!failed) printf("memory: a path has %zu octets, a frame %zu and its body; no more is requested, and all is freed\n", of_path, node);
  return failed != 0;
}
