/*
 * A driver that gathers, for bench/c-calls: its frames have no octets, and their memory is in reserve. It takes the header and the tag
 * of each frame, ends exchanges by bits with a measured airtime, moves the clock to a time, and takes frames back. Each transmission
 * arrives.
 */
#include <stdint.h>

#include "wf.h"

enum { STATIONS = 3, PACKETS = 32, ROUNDS = 1000, AIR = 2000, LENGTH = 1500 };

struct driver {
  struct wf_path path;
  struct wf_reply reply;
  struct wf_frames frames;
  uint64_t tags, now;
};

static int open_driver(struct driver *driver) {
  struct wf_settings settings = {0};
  uint16_t station;
  wf_settings_standard(&settings);
  settings.stations = STATIONS;
  settings.charge = AIR;
  if (wf_path_make(&driver->path, &settings)) return 0;
  if (wf_path_reserve(&driver->path, STATIONS * PACKETS)) return 0;
  for (station = 0; station < STATIONS; station++) {
    if (wf_path_join(&driver->path, station, 64, 0, 3, 1, &driver->reply)) return 0;
    if (wf_path_rate_vht(&driver->path, station, (uint8_t)(4 + 2 * station), 80, 0, 1, &driver->reply)) return 0;
  }
  return 1;
}

/* Packets come for each station, each with its own tag. */
static int hand_in(struct driver *driver) {
  struct wf_bare packet = {0};
  uint16_t station;
  int i;
  packet.length = LENGTH;
  for (station = 0; station < STATIONS; station++) {
    packet.flow = station;
    for (i = 0; i < PACKETS; i++) {
      packet.tag = driver->tags++;
      if (wf_path_enqueue_bare(&driver->path, station, &packet, &driver->reply)) return 0;
    }
  }
  return 1;
}

/* Gathers the frames of an exchange, and gives the bits of a BlockAck to all of them. */
static int gather(struct driver *driver, uint64_t exchange, uint8_t bits[32]) {
  struct wf_sent sent = {0};
  uint8_t header[WF_HEADER] = {0};
  uint64_t tag = 0, id = 0;
  uint16_t index;
  if (wf_path_sent(&driver->path, exchange, &sent)) return 0;
  for (index = 0; index < sent.count; index++) {
    unsigned offset = (driver->frames.numbers[index] - driver->frames.numbers[0]) & 4095u;
    if (wf_path_header(&driver->path, exchange, index, header)) return 0;
    if (wf_path_frame_tag(&driver->path, exchange, index, &tag)) return 0;
    if (wf_path_frame_id(&driver->path, exchange, index, &id)) return 0;
    bits[offset / 8] |= (uint8_t)(1 << offset % 8);
  }
  return 1;
}

/* One exchange, and what an upper queue asks after it. */
static int exchange_once(struct driver *driver) {
  uint8_t bits[32] = {0};
  struct wf_taken taken = {0};
  uint32_t count = 0;
  uint64_t exchange;
  uint16_t station;
  if (wf_path_pull(&driver->path, WF_BE, &driver->reply, &driver->frames)) return 0;
  exchange = driver->reply.exchange;
  station = driver->reply.station;
  if (!gather(driver, exchange, bits)) return 0;
  driver->now += AIR;
  if (wf_path_advance(&driver->path, driver->now, &driver->reply)) return 0;
  if (wf_path_done_bits(&driver->path, exchange, driver->frames.numbers[0], bits, AIR, &driver->reply)) return 0;
  while (wf_path_reap(&driver->path, &driver->reply, &taken, NULL, 0) == WF_OK) continue;
  return !wf_path_queued(&driver->path, station, 0, &count) && !wf_path_waiting(&driver->path, station, 0, &count);
}

int main(void) {
  static struct driver driver;
  int i, all = open_driver(&driver);
  for (i = 0; all && i < ROUNDS; i++) {
    all = hand_in(&driver);
    while (all && wf_path_can_pull(&driver.path, WF_BE)) all = exchange_once(&driver);
  }
  wf_path_free(&driver.path);
  return !all;
}
