/*
 * A freestanding program over the library for a kernel module: it has no C library, and provides the five
 * functions that the library needs. It drives two stations, frees the path, and prints how much stack a call
 * took at most, and that all memory is free again.
 */
#include <stddef.h>
#include <stdint.h>

#include <wf.h>

enum { STATIONS = 2, ROUNDS = 500, QUEUED = 40, PAINTED = 16384, MOST_STACK = 4096 };

/* ---- what a module provides */

void *malloc(size_t size);
void free(void *block);
void *memcpy(void *to, const void *from, size_t size);
void *memmove(void *to, const void *from, size_t size);
void *memset(void *to, int octet, size_t size);

/* A block of the heap, before its octets. */
struct head {
  size_t size;
  struct head *next; /* the next free one */
};

static union {
  uint8_t octets[16 << 20];
  struct head align[1];
} heap;
static size_t used;
static size_t blocks;  /* blocks that are not free */
static size_t largest; /* the octets of the largest block so far */
static struct head *unused;

void *malloc(size_t size) {
  struct head **at = &unused;
  struct head *made;
  if (size > largest) largest = size;
  size = (size + 15) / 16 * 16;
  while (*at && (*at)->size < size) at = &(*at)->next;
  made = *at;
  if (made) {
    *at = made->next;
  } else {
    if (sizeof heap.octets - used < size + sizeof *made) return NULL;
    made = (struct head *)(void *)(heap.octets + used);
    used += size + sizeof *made;
    made->size = size;
  }
  blocks++;
  return made + 1;
}

void free(void *block) {
  struct head *head = block;
  if (!head) return;
  head--;
  head->next = unused;
  unused = head;
  blocks--;
}

/* `volatile` keeps the compiler from making a call of the function itself out of its loop. */
void *memcpy(void *to, const void *from, size_t size) {
  volatile uint8_t *out = to;
  const uint8_t *in = from;
  size_t i;
  for (i = 0; i < size; i++) out[i] = in[i];
  return to;
}

void *memmove(void *to, const void *from, size_t size) {
  volatile uint8_t *out = to;
  const uint8_t *in = from;
  if ((uintptr_t)to < (uintptr_t)from) return memcpy(to, from, size);
  while (size--) out[size] = in[size];
  return to;
}

void *memset(void *to, int octet, size_t size) {
  volatile uint8_t *out = to;
  size_t i;
  for (i = 0; i < size; i++) out[i] = (uint8_t)octet;
  return to;
}

/* ---- the system */

static long system_call(long number, long first, const void *second, long third) {
  long result;
  __asm__ volatile("syscall" : "=a"(result) : "a"(number), "D"(first), "S"(second), "d"(third) : "rcx", "r11", "memory");
  return result;
}

static void print(const char *text) {
  long length = 0;
  while (text[length]) length++;
  system_call(1, 1, text, length);
}

static void print_number(uint64_t number) {
  char text[24];
  int at = 23;
  text[at] = 0;
  do text[--at] = (char)('0' + number % 10);
  while (number /= 10);
  print(text + at);
}

static _Noreturn void leave(int status) {
  for (;;) system_call(60, status, NULL, 0);
}

static _Noreturn void fail(const char *what, int32_t code) {
  print("kernel: ");
  print(what);
  print(": code ");
  print_number((uint64_t)code);
  print("\n");
  leave(1);
}

/* ---- the stack */

static size_t deepest;
static uintptr_t top;

/* Writes a pattern to the stack below this call. */
static __attribute__((noinline)) void paint(void) {
  volatile uint8_t *low;
  size_t i;
  top = (uintptr_t)__builtin_frame_address(0);
  low = (volatile uint8_t *)(top - PAINTED);
  for (i = 0; i < PAINTED - 256; i++) low[i] = 0xa5;
}

/* Returns how much of the stack was written since `paint`. */
static __attribute__((noinline)) size_t written(void) {
  volatile uint8_t *low = (volatile uint8_t *)(top - PAINTED);
  size_t i = 0;
  while (i < PAINTED - 256 && low[i] == 0xa5) i++;
  return PAINTED - i;
}

/* Notes how much stack the last call took. */
static void note(void) {
  size_t now = written();
  if (now > deepest) deepest = now;
}

#define MUST(what, call)                \
  do {                                  \
    int32_t code_;                      \
    paint();                            \
    code_ = (call);                     \
    note();                             \
    if (code_ != WF_OK) fail(what, code_); \
  } while (0)

/* ---- the driver */

static struct wf_path path;
static struct wf_reply reply;
static struct wf_frames frames;
static uint8_t body[WF_GREATEST_BODY], mpdu[WF_GREATEST_MPDU];
static uint32_t seed = 1;

static uint32_t below(uint32_t n) {
  seed = seed * 1664525u + 1013904223u;
  return (seed >> 8) % n;
}

/* Keeps frames waiting for a station. */
static void fill(uint16_t station) {
  struct wf_packet packet = {0};
  uint32_t queued = 0;
  packet.body = body;
  for (;;) {
    MUST("queued", wf_path_queued(&path, station, 0, &queued));
    if (queued >= QUEUED) return;
    packet.length = 1 + below(WF_GREATEST_BODY);
    packet.flow = below(8);
    MUST("enqueue", wf_path_enqueue(&path, station, &packet, &reply));
  }
}

/* Sends an exchange: some frames are lost, and some BlockAcks. */
static void exchange(void) {
  uint8_t bits[32] = {0};
  uint64_t number;
  size_t size = 0;
  uint16_t i, start;
  MUST("pull", wf_path_pull(&path, WF_BE, &reply, &frames));
  number = reply.exchange;
  start = reply.request ? reply.start : frames.numbers[0];
  for (i = 0; i < frames.count; i++) {
    unsigned offset = (unsigned)(frames.numbers[i] - start) & 4095;
    MUST("mpdu", wf_path_mpdu(&path, number, i, mpdu, sizeof mpdu, &size));
    MUST("header", wf_path_header(&path, number, i, mpdu));
    if (below(8)) bits[offset / 8] |= (uint8_t)(1 << offset % 8);
  }
  MUST("tick", wf_path_tick(&path, reply.air, &reply));
  if (below(8)) MUST("done_bits", wf_path_done_bits(&path, number, start, bits, 0, &reply));
  else MUST("done_lost", wf_path_done_lost(&path, number, 0, &reply));
}

/* Reaps the finished frames, and returns how many they are. */
static uint32_t reap(void) {
  struct wf_taken taken = {0};
  uint32_t count = 0;
  for (;;) {
    int32_t code;
    paint();
    code = wf_path_reap(&path, &reply, &taken, NULL, 0);
    note();
    if (code == WF_NOTHING) return count;
    if (code) fail("reap", code);
    count++;
  }
}

/* Ends exchanges of a device that reports each frame, and flushes the rest. */
static void report_each(void) {
  uint8_t outcomes[256];
  uint64_t number;
  uint16_t i;
  MUST("pull", wf_path_pull(&path, WF_BE, &reply, &frames));
  MUST("cancel", wf_path_cancel(&path, reply.exchange, &reply));
  MUST("pull", wf_path_pull(&path, WF_BE, &reply, &frames));
  number = reply.exchange;
  outcomes[0] = 0;
  for (i = 0; i < frames.count; i++) outcomes[i] = (uint8_t)below(4);
  MUST("done_each", wf_path_done_each(&path, number, outcomes, reply.request ? 1 : frames.count, 0, &reply));
  MUST("pull", wf_path_pull(&path, WF_BE, &reply, &frames));
  number = reply.exchange;
  MUST("unsent", wf_path_unsent(&path, number, 0, &reply));
  if (frames.count > 1) MUST("give_up", wf_path_give_up(&path, number, 1, &reply));
  MUST("done_lost", wf_path_done_lost(&path, number, 0, &reply));
  MUST("flush", wf_path_flush(&path, 0, 0, &reply));
}

/* Makes the calls that a driver makes seldom. */
static void other_calls(void) {
  MUST("rate", wf_path_rate_he(&path, 1, 11, 80, 800, 2, &reply));
  MUST("sleep", wf_path_sleep(&path, 1, &reply));
  MUST("wake", wf_path_wake(&path, 1, &reply));
  MUST("rx", wf_path_rx(&path, 1, WF_BE, 100, &reply));
  MUST("weight", wf_path_weight(&path, 1, 2, &reply));
  MUST("leave", wf_path_leave(&path, 1, &reply));
  MUST("join_offload", wf_path_join_offload(&path, 1, 3, 1, &reply));
  MUST("leave", wf_path_leave(&path, 1, &reply));
}

/* Sends the frame of a plain exchange, and ends it by an Ack or without one. */
static void exchange_plain(uint8_t acked) {
  MUST("pull", wf_path_pull(&path, WF_BE, &reply, &frames));
  if (!reply.plain || frames.count != 1) fail("a plain exchange", reply.plain);
  MUST("done_ack", wf_path_done_ack(&path, reply.exchange, acked, 0, &reply));
}

/* Lets station 1 join without agreements, in its own BSS. An agreement begins while a frame waits to be sent
 * again, and ends while others do. No other station has frames. */
static void change_modes(void) {
  static const uint8_t bss[6] = {0x06, 0, 0, 0, 0, 1};
  uint32_t flying = 1, drained = 0, waiting = 0;
  uint8_t tim[256] = {0};
  MUST("set_aid", wf_path_set_aid(&path, 1, 2007));
  MUST("plain", wf_path_plain(&path, 1, 4095, 3, 1, &reply));
  MUST("set_bss", wf_path_set_bss(&path, 1, bss));
  MUST("set_station_bss", wf_path_set_station_bss(&path, 1, 1, &reply));
  fill(1);
  exchange_plain(0);
  MUST("hold", wf_path_hold(&path, 1, 0, &reply));
  if (reply.start != 0) fail("the number of a hold", reply.start);
  exchange_plain(1);
  MUST("flying", wf_path_flying(&path, 1, 0, &flying));
  MUST("drained", wf_path_drained(&path, 1, 0, &drained));
  if (flying || !drained) fail("a TID that is not drained", (int32_t)flying);
  MUST("begin", wf_path_begin(&path, 1, 0, 64, &reply));
  MUST("pull", wf_path_pull(&path, WF_BE, &reply, &frames));
  MUST("done_lost", wf_path_done_lost(&path, reply.exchange, 0, &reply));
  MUST("sleep", wf_path_sleep(&path, 1, &reply));
  paint();
  if (wf_path_tim(&path, 1, 0, 1, 0, tim) != 6 || tim[4] != (250 & 0xfe)) fail("the TIM of a BSS", tim[4]);
  note();
  MUST("waiting", wf_path_waiting(&path, 1, 0, &waiting));
  MUST("cease", wf_path_cease(&path, 1, 0, &reply));
  if (reply.count == 0 || reply.count != waiting) fail("the frames of an agreement", (int32_t)reply.count);
  MUST("free_tid", wf_path_free_tid(&path, 1, 0, &reply));
  MUST("leave", wf_path_leave(&path, 1, &reply));
}

/* Lets station 1 sleep, and get frames in service periods of two frames. No other station has frames. */
static void serve(void) {
  MUST("join", wf_path_join(&path, 1, 64, 0, 3, 1, &reply));
  MUST("apsd", wf_path_apsd(&path, 1, 1 << WF_BE, 2, &reply));
  MUST("sleep", wf_path_sleep(&path, 1, &reply));
  fill(1);
  MUST("trigger", wf_path_trigger(&path, 1, &reply));
  if (wf_path_in_service(&path, 1) != 1) fail("a service period", reply.class_);
  MUST("pull", wf_path_pull(&path, WF_BE, &reply, &frames));
  if (!reply.eosp || frames.count != 2 || wf_path_in_service(&path, 1)) fail("the last exchange of a service period", frames.count);
  MUST("done_lost", wf_path_done_lost(&path, reply.exchange, 0, &reply));
  MUST("trigger", wf_path_trigger(&path, 1, &reply));
  MUST("end_service", wf_path_end_service(&path, 1, &reply));
  MUST("leave", wf_path_leave(&path, 1, &reply));
}

static void make(void) {
  struct wf_settings settings = {0};
  uint16_t station;
  int32_t code;
  wf_settings_standard(&settings);
  settings.inflight = 1;
  settings.bsses = 2;
  code = wf_path_make(&path, &settings);
  if (code) fail("make", code);
  print("make took ");
  print_number(blocks);
  print(" blocks, ");
  print_number(used);
  print(" octets; the largest has ");
  print_number(largest);
  print("\n");
  largest = 0;
  for (station = 0; station < STATIONS; station++) {
    MUST("join", wf_path_join(&path, station, 64, 0, 3, 1, &reply));
    MUST("rate", wf_path_rate_ht(&path, station, station ? 0 : 7, 20, 0, &reply));
  }
}

static int run(void) {
  struct wf_tally tally = {0};
  uint32_t count = 0;
  int i;
  make();
  for (i = 0; i < ROUNDS; i++) {
    uint16_t station;
    for (station = 0; station < STATIONS; station++) fill(station);
    exchange();
    count += reap();
  }
  report_each();
  other_calls();
  change_modes();
  serve();
  count += reap();
  wf_path_tally(&path, &tally);
  wf_path_free(&path);
  print_number(ROUNDS);
  print(" exchanges, ");
  print_number(count);
  print(" frames reaped, ");
  print_number(tally.acked);
  print(" acknowledged; blocks that are not free: ");
  print_number(blocks);
  print("\na call but make and free took at most ");
  print_number(deepest);
  print(" octets of stack; an enqueue allocates blocks of at most ");
  print_number(largest);
  print("\n");
  return blocks || deepest >= MOST_STACK;
}

/* The stack is a multiple of 16 here. */
__attribute__((used)) static _Noreturn void begin(void) {
  leave(run());
}

__asm__(".globl _start\n_start:\n\txor %ebp, %ebp\n\tand $-16, %rsp\n\tcall begin\n");
