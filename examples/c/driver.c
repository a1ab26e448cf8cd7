/*
 * Drives three stations at one access point over a lossy link, through libwf, and prints their shares of the
 * airtime.
 *
 * Station 0 is fast, station 1 is slow, and station 2 has weight 2. Each always has frames waiting, so they
 * share the airtime by weight, whatever they send. Build it with `./wf lib` and the flags that it prints.
 */
#include <stdint.h>
#include <stdio.h>
#include <string.h>

#include "wf.h"

enum { STATIONS = 3, QUEUED = 64, EXCHANGES = 3000, LOST_IN_16 = 1 };

static const uint8_t MCS[STATIONS] = {7, 0, 7};
static const uint8_t WEIGHT[STATIONS] = {1, 1, 2};

struct air {
  struct wf_path path;
  struct wf_reply reply;
  uint32_t random;
  uint32_t inside[STATIONS]; /* frames accepted and not yet reaped, by station */
  uint64_t bytes[STATIONS];  /* octets of acknowledged bodies, by station */
};

/* Returns whether a transmission is lost on the air. */
static int is_lost(struct air *air) {
  air->random = air->random * 1664525u + 1013904223u;
  return (air->random >> 28) < LOST_IN_16;
}

static int open_air(struct air *air) {
  struct wf_settings settings = {0};
  uint16_t station;
  memset(air, 0, sizeof *air);
  wf_settings_standard(&settings);
  settings.stations = STATIONS;
  if (wf_path_make(&air->path, &settings)) return 0;
  for (station = 0; station < STATIONS; station++) {
    if (wf_path_join(&air->path, station, 64, 0, 3, WEIGHT[station], &air->reply)) return 0;
    if (wf_path_rate_ht(&air->path, station, MCS[station], 20, 0, &air->reply)) return 0;
  }
  return 1;
}

/* Enqueues frames until each station has QUEUED frames inside. */
static int fill(struct air *air) {
  static const uint8_t body[1500] = {0xaa, 0xaa, 0x03};
  struct wf_packet packet = {0};
  uint16_t station;
  packet.body = body;
  packet.length = sizeof body;
  for (station = 0; station < STATIONS; station++) {
    packet.flow = station;
    while (air->inside[station] < QUEUED) {
      if (wf_path_enqueue(&air->path, station, &packet, &air->reply)) return 0;
      air->inside[station]++;
    }
  }
  return 1;
}

/* Writes an empty BlockAck of the station that the frame went to. */
static void start_answer(uint8_t ack[28], const uint8_t *frame, uint8_t tid) {
  memset(ack, 0, 28);
  ack[0] = 0x94;
  memcpy(ack + 4, frame + 10, 6); /* to the access point */
  memcpy(ack + 10, frame + 4, 6); /* from the station */
  ack[16] = 0x04;                 /* compressed */
  ack[17] = (uint8_t)(tid << 4);
  memcpy(ack + 18, frame + (frame[0] == 0x84 ? 18 : 22), 2); /* its start */
}

static unsigned number_at(const uint8_t *octets) { return (unsigned)(octets[0] | octets[1] << 8) >> 4; }

/* Sends the transmissions of an exchange, loses some, and sets the others' bits in the BlockAck. Returns 0 if
 * none arrived. */
static int transmit(struct air *air, uint64_t exchange, uint8_t ack[28]) {
  struct wf_sent sent = {0};
  uint8_t frame[WF_GREATEST_MPDU] = {0};
  size_t size = 0;
  uint16_t index;
  int arrived = 0;
  if (wf_path_sent(&air->path, exchange, &sent)) return 0;
  for (index = 0; index < sent.count; index++) {
    if (wf_path_mpdu(&air->path, exchange, index, frame, sizeof frame, &size)) return 0;
    if (index == 0) start_answer(ack, frame, sent.tid);
    if (is_lost(air)) continue;
    arrived = 1;
    if (!sent.request) {
      unsigned offset = (number_at(frame + 22) - number_at(ack + 18)) & 4095;
      ack[20 + offset / 8] |= (uint8_t)(1 << offset % 8);
    }
  }
  return arrived;
}

/* Pulls one exchange, sends it, and ends it by its BlockAck. No device measures the airtime, so `air` is 0.
 * */
static int exchange_once(struct air *air) {
  static struct wf_frames frames;
  uint8_t ack[28];
  uint64_t exchange;
  uint32_t took;
  if (wf_path_pull(&air->path, WF_BE, &air->reply, &frames)) return 0;
  exchange = air->reply.exchange;
  took = air->reply.air;
  if (!transmit(air, exchange, ack) || is_lost(air)) {
    if (wf_path_done_lost(&air->path, exchange, 0, &air->reply)) return 0;
  } else {
    if (wf_path_done_octets(&air->path, exchange, ack, sizeof ack, 0, &air->reply)) return 0;
  }
  return wf_path_tick(&air->path, took, &air->reply) == WF_OK;
}

/* Reaps the finished frames. */
static void reap(struct air *air) {
  struct wf_taken taken = {0};
  uint8_t body[WF_GREATEST_BODY] = {0};
  while (wf_path_reap(&air->path, &air->reply, &taken, body, sizeof body) == WF_OK) {
    air->inside[taken.station]--;
    if (air->reply.fate == WF_ACKED) air->bytes[taken.station] += taken.length;
  }
}

static void report(struct air *air) {
  struct wf_share share[STATIONS] = {{0, 0, 0}};
  struct wf_tally tally = {0};
  uint64_t all = 0, now = wf_path_now(&air->path);
  uint16_t station;
  for (station = 0; station < STATIONS; station++) {
    if (wf_path_share(&air->path, station, WF_BE, &share[station]) == WF_OK) all += share[station].charged;
  }
  for (station = 0; station < STATIONS; station++) {
    printf("station %d: weight %d, MCS %d: %.1f %% of the airtime, %.2f Mbit/s\n", (int)station, WEIGHT[station], MCS[station],
           100.0 * (double)share[station].charged / (double)(all ? all : 1), 8.0 * (double)air->bytes[station] / (double)(now ? now : 1));
  }
  wf_path_tally(&air->path, &tally);
  printf("%d exchanges, %d open; frames: %d accepted, %d acknowledged, %d dropped by CoDel, %d after their last transmission\n",
         (int)wf_path_exchanges(&air->path), (int)wf_path_open_count(&air->path), (int)tally.accepted, (int)tally.acked,
         (int)tally.codel, (int)tally.retries);
}

int main(void) {
  struct air air;
  int i;
  if (!open_air(&air)) return 1;
  for (i = 0; i < EXCHANGES; i++) {
    if (!fill(&air) || !exchange_once(&air)) return 1;
    reap(&air);
  }
  report(&air);
  wf_path_free(&air.path);
  return 0;
}
