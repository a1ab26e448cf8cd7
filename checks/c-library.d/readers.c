/*
 * Calls each reader of wf.h on handles in memory that cannot be written, those of a path from four threads at once: a function that
 * takes a handle by a pointer to const writes nothing to it.
 */
#include <pthread.h>
#include <stdio.h>
#include <string.h>
#include <sys/mman.h>

#include "wf.h"

/* Frames of TID 5 are in the queue of flow FLOW; CoDel of a station of MCS 0 drops when they have waited for WAIT and a PERIOD. */
enum { THREADS = 4, ROUNDS = 1000, TAG = 7, TID = 5, FRAMES = 8, FLOW = 3, WAIT = 50000, PERIOD = 300000 };

/* The content of the memory that cannot be written. */
struct handles {
  struct wf_path path;
  struct wf_cell cell;
};

static uint64_t exchange;
static uint32_t air, airs; /* of the exchange of TID 0, and of the two of TID 5 */
static uint64_t left;      /* the octets of the frames of TID 5 that are still queued */
static struct wf_settings settings;

/* Sends one frame of TID 5, if its flow has waited for this time. */
static int send_one(struct wf_path *path, uint32_t waited) {
  static struct wf_frames frames;
  struct wf_reply reply = {0};
  if (wf_path_tick(path, waited, &reply)) return 0;
  if (wf_path_pull_limited(path, WF_VI, 1, 0, &reply, &frames)) return 0;
  airs += reply.air;
  return frames.count == 1;
}

/* Queues frames of TID 5, and sends the first and the third; CoDel drops the second. */
static int fill_queue(struct wf_path *path, const uint8_t *body) {
  struct wf_packet packet = {0};
  struct wf_reply reply = {0};
  uint16_t i;
  packet.body = body;
  packet.flow = settings.flows + FLOW;
  packet.tid = TID;
  for (i = 0; i < FRAMES; i++) {
    packet.length = 1000u + i;
    if (wf_path_enqueue(path, 0, &packet, &reply)) return 0;
    if (i > 2) left += packet.length;
  }
  return send_one(path, WAIT) && send_one(path, PERIOD);
}

/* A path with three open exchanges, and a cell that has made one call. */
static int fill(struct handles *handles) {
  static const uint8_t body[1500] = {0xaa, 0xaa, 0x03};
  static struct wf_frames frames;
  struct wf_reply reply = {0};
  struct wf_call call = {0};
  struct wf_packet packet = {0};
  packet.body = body;
  packet.length = sizeof body;
  packet.tag = TAG;
  wf_settings_standard(&settings);
  if (wf_path_make(&handles->path, &settings) || wf_path_join(&handles->path, 0, 64, 0, 3, 1, &reply)) return 0;
  if (wf_path_enqueue(&handles->path, 0, &packet, &reply)) return 0;
  if (wf_path_pull(&handles->path, WF_BE, &reply, &frames)) return 0;
  exchange = reply.exchange;
  air = reply.air;
  if (!fill_queue(&handles->path, body)) return 0;
  call.kind = WF_CALL_TICK;
  return wf_cell_make(&handles->cell, &settings) == WF_OK && wf_cell_ask(&handles->cell, 0, &call, &reply) == WF_OK;
}

/* The TID of the frame that is on the air. */
static int read_tid(const struct wf_path *path) {
  uint32_t queued = 1, waiting = 1, flying = 0, drained = 1;
  return wf_path_queued(path, 0, 0, &queued) == WF_OK && queued == 0 &&
         wf_path_waiting(path, 0, 0, &waiting) == WF_OK && waiting == 0 &&
         wf_path_flying(path, 0, 0, &flying) == WF_OK && flying == 1 &&
         wf_path_drained(path, 0, 0, &drained) == WF_OK && drained == 0;
}

/* The frames of TID 5 that are still queued, and the airtime in flight. */
static int read_queues(const struct wf_path *path) {
  struct wf_codel codel = {0}, over = {0};
  uint64_t octets = 0, none = 1;
  uint32_t queued = 0, first = 0, both = 0;
  const uint32_t queues = settings.flows + 8 * settings.stations;
  return wf_path_queued(path, 0, TID, &queued) == WF_OK && queued == FRAMES - 3 &&
         wf_path_octets(path, 0, TID, &octets) == WF_OK && octets == left &&
         wf_path_octets(path, 0, 0, &none) == WF_OK && none == 0 &&
         wf_path_codel(path, FLOW, &codel) == WF_OK && codel.octets == left && codel.dropping == 1 && codel.drop_count == 1 &&
         codel.drop_next == WAIT + 2 * PERIOD && codel.dropped == 1 &&
         wf_path_codel(path, settings.flows + TID, &over) == WF_OK && over.octets == 0 && over.dropping == 0 && over.dropped == 0 &&
         wf_path_codel(path, queues - 1, &over) == WF_OK && wf_path_codel(path, queues, &over) == WF_BAD_INDEX &&
         wf_path_pending(path, 0, WF_BE, &first) == WF_OK && first == air &&
         wf_path_pending(path, 0, WF_VI, &both) == WF_OK && both == airs;
}

/* The exchange that sends it. */
static int read_exchange(const struct wf_path *path) {
  uint8_t out[WF_GREATEST_MPDU] = {0}, header[WF_HEADER] = {0};
  struct wf_sent sent = {0};
  uint64_t id = 1, tag = 0;
  size_t size = 0;
  return wf_path_sent(path, exchange, &sent) == WF_OK && sent.count == 1 &&
         wf_path_frame_id(path, exchange, 0, &id) == WF_OK && id == 0 &&
         wf_path_frame_tag(path, exchange, 0, &tag) == WF_OK && tag == TAG &&
         wf_path_mpdu(path, exchange, 0, out, sizeof out, &size) == WF_OK && size == 1526 &&
         wf_path_header(path, exchange, 0, header) == WF_OK && memcmp(header, out, sizeof header) == 0;
}

static int read_path(const struct wf_path *path) {
  uint8_t tim[256] = {0}, base[6] = {0}, address[6] = {0}, header[WF_GROUP_HEADER] = {0};
  struct wf_group_counts counts = {0};
  struct wf_tally tally = {0};
  struct wf_share share = {0};
  wf_path_tally(path, &tally);
  if (wf_path_group_counts(path, 0, &counts) || wf_path_group_counts(path, 1, &counts) != WF_BAD_BSS) return 0;
  wf_path_base(path, base);
  if (base[0] != 2 || wf_path_address(path, 1, address) || address[5] != 1) return 0;
  return wf_path_now(path) == WAIT + PERIOD && wf_path_exchanges(path) == 3 && wf_path_open_count(path) == 3 && wf_path_live(path, 0) == 1 &&
         wf_path_in_service(path, 0) == 0 &&
         wf_path_share(path, 0, WF_BE, &share) == WF_OK && wf_path_tim(path, 0, 0, 1, 0, tim) == 6 &&
         wf_path_tim(path, 1, 2, 3, 1, tim) == 6 && wf_path_group_header(path, 0, base, header) == WF_NOTHING && counts.accepted == 0 &&
         tally.accepted == 1 + FRAMES && tally.codel == 1 && wf_path_can_pull(path, WF_BE) == 0 && wf_path_listed(path, 0, WF_BE) > 0 &&
         wf_path_listed(path, 1, WF_BE) == 0 && wf_path_has_small_counts(path) == 1 && read_exchange(path) && read_tid(path) &&
         read_queues(path);
}

static int read_cell(const struct wf_cell *cell) {
  struct wf_frames frames = {0};
  struct wf_passed_up up = {0};
  struct wf_block block = {0};
  struct wf_call call = {0};
  uint32_t caller = 1;
  wf_cell_frames(cell, &frames);
  wf_cell_released(cell, &up);
  wf_cell_block(cell, &block);
  return frames.count == 0 && up.count == 0 && block.start == 0 && wf_cell_len(cell) == 1 && wf_cell_room(cell) > 0 &&
         wf_cell_entry(cell, 0, &caller, &call) == WF_OK && call.kind == WF_CALL_TICK;
}

static void *read_all(void *given) {
  const struct handles *handles = given;
  int i;
  for (i = 0; i < ROUNDS; i++) {
    if (!read_path(&handles->path)) return NULL;
  }
  return given;
}

/* Returns whether each of several threads has read path and cell. */
static int read_at_once(struct handles *handles) {
  pthread_t threads[THREADS];
  int i, all = 1;
  for (i = 0; i < THREADS; i++) {
    if (pthread_create(&threads[i], NULL, read_all, handles)) return 0;
  }
  for (i = 0; i < THREADS; i++) {
    void *given = NULL;
    if (pthread_join(threads[i], &given) || given != handles) all = 0;
  }
  return all;
}

int main(void) {
  struct handles *handles = mmap(NULL, sizeof *handles, PROT_READ | PROT_WRITE, MAP_PRIVATE | MAP_ANONYMOUS, -1, 0);
  if (handles == MAP_FAILED) return 1;
  if (!fill(handles)) return 1;
  if (mprotect(handles, sizeof *handles, PROT_READ)) return 1;
  if (!read_at_once(handles) || !read_cell(&handles->cell)) return 1;
  if (mprotect(handles, sizeof *handles, PROT_READ | PROT_WRITE)) return 1;
  wf_path_free(&handles->path);
  wf_cell_free(&handles->cell);
  printf("readers: %d threads read %d times what none of them could write\n", THREADS, ROUNDS);
  return munmap(handles, sizeof *handles);
}
