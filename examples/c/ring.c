/*
 * A driver over libwf for a device with a ring of descriptors, one for each transmission. The driver pulls no
 * more frames than the ring has free descriptors (wf_path_pull_limited). The device sends the descriptors of an
 * exchange as an aggregate, and writes a status into each of them: the frame was acknowledged, it was not, its
 * lifetime is over, or it was not sent, because the aggregate was cut short. The driver reads the statuses in the
 * order of the ring, and ends each exchange by the outcomes of its transmissions (wf_path_done_each).
 */
#include <stdint.h>
#include <stdio.h>
#include <string.h>

#include "account.h"
#include "wf.h"

enum { STATIONS = 3, RING = 40, MOST = 256, QUEUED = 64, LONGEST = 20000 };

/* The statuses that the device writes. */
enum status { STATUS_ACKED, STATUS_NOT_ACKED, STATUS_EXPIRED, STATUS_NOT_SENT };

static const uint8_t OUTCOMES[] = {WF_OUTCOME_ACKED, WF_OUTCOME_RETRY, WF_OUTCOME_GAVE_UP, WF_OUTCOME_UNSENT};

struct descriptor {
  uint64_t exchange;
  uint64_t number; /* of the packet; a BlockAckReq has none */
  uint32_t air;    /* the airtime of its exchange, computed or measured */
  uint8_t is_request;
  uint8_t is_last; /* of its exchange */
  uint8_t status;  /* enum status */
};

struct driver {
  struct wf_path path;
  struct account account;
  struct descriptor ring[RING];
  unsigned first, used, sent; /* the oldest descriptor, and how many are used and were sent */
  uint32_t random;
  uint64_t time; /* of the device, in microseconds */
  unsigned exchanges, cut;
};

static uint32_t below(struct driver *driver, uint32_t bound) {
  driver->random = driver->random * 1664525u + 1013904223u;
  return (driver->random >> 8) % bound;
}

static struct descriptor *descriptor_at(struct driver *driver, unsigned place) {
  return &driver->ring[(driver->first + place) % RING];
}

/* ---- the device, which does not use the path */

/* Returns the status of a descriptor. Everything from `end` on is cut off. */
static uint8_t some_status(struct driver *driver, unsigned place, unsigned end, int is_heard) {
  if (place >= end) return STATUS_NOT_SENT;
  if (is_heard && below(driver, 8)) return STATUS_ACKED;
  return below(driver, 16) ? STATUS_NOT_ACKED : STATUS_EXPIRED;
}

/* Sends the next exchange in the ring, and measures its airtime. Now and then it is cut short, at any place. */
static void send_exchange(struct driver *driver) {
  unsigned place, count = 1, end, begin = driver->sent;
  int is_heard = below(driver, 16) != 0;
  uint32_t air = descriptor_at(driver, begin)->air;
  while (!descriptor_at(driver, begin + count - 1)->is_last) count++;
  end = below(driver, 8) ? count : below(driver, count);
  if (end < count) driver->cut++;
  for (place = 0; place < count; place++) {
    struct descriptor *now = descriptor_at(driver, begin + place);
    now->status = some_status(driver, place, end, is_heard);
    if (!now->is_request && now->status != STATUS_NOT_SENT) account_send(&driver->account, now->number);
  }
  air = air * end / count + 9 * below(driver, 16) + 1;
  descriptor_at(driver, begin + count - 1)->air = air < LONGEST ? air : LONGEST;
  driver->sent += count;
}

/* Sends at most two exchanges, and then interrupts the driver. */
static void run_device(struct driver *driver) {
  int i;
  for (i = 0; i < 2 && driver->sent < driver->used; i++) send_exchange(driver);
}

/* ---- the driver */

/* Pulls an exchange that fits into the ring, and fills its descriptors. */
static int post_exchange(struct driver *driver) {
  static struct wf_frames frames;
  struct wf_reply reply = {0};
  struct wf_sent sent = {0};
  uint16_t index;
  if (wf_path_pull_limited(&driver->path, WF_BE, RING - driver->used, 0, &reply, &frames)) return 0;
  if (wf_path_sent(&driver->path, reply.exchange, &sent) || sent.count > RING - driver->used) return 0;
  for (index = 0; index < sent.count; index++) {
    struct descriptor *next = descriptor_at(driver, driver->used++);
    memset(next, 0, sizeof *next);
    next->exchange = reply.exchange;
    next->air = reply.air;
    next->is_request = sent.request;
    next->is_last = index + 1 == sent.count;
    if (!sent.request && wf_path_frame_tag(&driver->path, reply.exchange, index, &next->number)) return 0;
  }
  return 1;
}

static int fill_ring(struct driver *driver) {
  while (driver->used < RING && wf_path_can_pull(&driver->path, WF_BE)) {
    if (!post_exchange(driver)) return 0;
  }
  return 1;
}

/* Frees the descriptors of the oldest exchange, which was sent, and ends it by their statuses. */
static int finish_exchange(struct driver *driver) {
  uint8_t outcomes[MOST];
  struct wf_reply reply = {0};
  const struct descriptor *oldest;
  unsigned count = 0;
  do {
    oldest = descriptor_at(driver, 0);
    outcomes[count++] = OUTCOMES[oldest->status];
    driver->first = (driver->first + 1) % RING;
  } while (!oldest->is_last);
  driver->used -= count;
  driver->sent -= count;
  driver->time += oldest->air;
  driver->exchanges++;
  if (wf_path_advance(&driver->path, driver->time, &reply)) return 0;
  return wf_path_done_each(&driver->path, oldest->exchange, outcomes, count, oldest->air, &reply) == WF_OK;
}

/* Handles an interrupt: ends the exchanges that were sent, and reaps the finished frames. */
static int handle_interrupt(struct driver *driver) {
  while (driver->sent) {
    if (!finish_exchange(driver)) return 0;
  }
  account_reap(&driver->account, &driver->path);
  return 1;
}

/* ---- the program */

static int open_driver(struct driver *driver) {
  struct wf_settings settings = {0};
  struct wf_reply reply = {0};
  uint16_t station;
  memset(driver, 0, sizeof *driver);
  driver->random = 1;
  wf_settings_device(&settings);
  settings.stations = STATIONS;
  settings.charge = LONGEST;
  if (wf_path_make(&driver->path, &settings)) return 0;
  for (station = 0; station < STATIONS; station++) {
    if (wf_path_join(&driver->path, station, 64, 0, 3, 1, &reply)) return 0;
    if (wf_path_rate_vht(&driver->path, station, (uint8_t)(2 * station + 1), 40, 1, 1, &reply)) return 0;
  }
  return 1;
}

/* Gives packets while fewer than QUEUED are queued for a station. */
static int give_packets(struct driver *driver) {
  uint16_t station;
  for (station = 0; station < STATIONS; station++) {
    uint32_t queued = 0;
    while (driver->account.given < PACKETS) {
      if (wf_path_queued(&driver->path, station, 0, &queued)) return 0;
      if (queued >= QUEUED) break;
      if (account_give(&driver->account, &driver->path, station, 0)) return 0;
    }
  }
  return 1;
}

static int drive(struct driver *driver) {
  while (!account_is_closed(&driver->account)) {
    if (!give_packets(driver) || !fill_ring(driver)) return 0;
    run_device(driver);
    if (!handle_interrupt(driver)) return 0;
  }
  return account_fits(&driver->account, &driver->path) && wf_path_open_count(&driver->path) == 0;
}

int main(void) {
  static struct driver driver;
  int all;
  if (!open_driver(&driver)) return 1;
  all = drive(&driver);
  account_print(&driver.account, "ring");
  printf("ring: %u exchanges, of which %u were cut short\n", driver.exchanges, driver.cut);
  wf_path_free(&driver.path);
  return !all;
}
