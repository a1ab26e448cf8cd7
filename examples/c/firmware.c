/*
 * A driver over libwf for a device whose firmware numbers, aggregates and repeats frames by itself. Its stations
 * join by wf_path_join_offload, so a pull gives a batch of frames without sequence numbers. The firmware reports
 * late and in parts: now some frames of one batch, now some of another. It gives a frame up after TRIES tries, and
 * returns frames that it did not try because their station has gone to sleep. The driver collects the outcomes of a
 * batch, and ends it when it has all of them (wf_path_done_each), or cancels it if nothing went on the air
 * (wf_path_cancel). Frames that were not tried are pulled again after their station woke.
 */
#include <stdint.h>
#include <stdio.h>
#include <string.h>

#include "account.h"
#include "wf.h"

enum { STATIONS = 3, TIDS = 2, BATCHES = 8, MOST = 256, QUEUED = 64, TRIES = 4, LONGEST = 60000 };

/* A batch that the firmware has: the driver's notes of it. */
struct batch {
  uint64_t exchange;
  uint32_t air;     /* the measured airtime of the reports so far */
  uint32_t planned; /* the airtime of sending each frame once */
  uint16_t station;
  uint16_t count;
  uint16_t reported; /* how many frames the firmware has reported */
  uint8_t outcomes[MOST];
};

/* A report of the firmware: some frames of a batch, in the order in which it got them. */
struct report {
  unsigned batch;
  uint16_t count;
  uint8_t outcomes[MOST];
  uint32_t air;      /* the measured airtime */
  uint8_t is_asleep; /* whether the station has gone to sleep */
};

struct driver {
  struct wf_path path;
  struct account account;
  struct batch batches[BATCHES];
  unsigned count;
  uint32_t random;
  uint64_t time; /* of the device, in microseconds */
  unsigned reports, tries, given_up, unsent, cancelled;
};

static uint32_t below(struct driver *driver, uint32_t bound) {
  driver->random = driver->random * 1664525u + 1013904223u;
  return (driver->random >> 8) % bound;
}

/* ---- the firmware, which does not use the path */

/* Tries a frame until it is acknowledged, or given up. A station that is far away loses more. */
static uint8_t try_frame(struct driver *driver, const struct batch *batch, uint32_t *air) {
  int tries;
  for (tries = 0; tries < TRIES; tries++) {
    driver->tries++;
    *air += batch->planned / batch->count + 9 * below(driver, 16);
    if (below(driver, 4) >= batch->station) return WF_OUTCOME_ACKED;
  }
  return WF_OUTCOME_GAVE_UP;
}

/* Sends the next frames of any batch, and reports them. Now and then the station goes to sleep before that. */
static void send_some(struct driver *driver, struct report *report) {
  const struct batch *batch;
  uint16_t i;
  memset(report, 0, sizeof *report);
  report->batch = below(driver, driver->count);
  batch = &driver->batches[report->batch];
  report->count = (uint16_t)(1 + below(driver, (uint32_t)(batch->count - batch->reported)));
  report->is_asleep = below(driver, 12) == 0;
  for (i = 0; i < report->count; i++) {
    report->outcomes[i] = report->is_asleep ? WF_OUTCOME_UNSENT : try_frame(driver, batch, &report->air);
  }
}

/* ---- the driver */

/* Pulls batches for the firmware while it has room. */
static int fill_firmware(struct driver *driver) {
  static struct wf_frames frames;
  static const uint8_t CLASSES[] = {WF_VI, WF_BE};
  unsigned i;
  for (i = 0; i < sizeof CLASSES; i++) {
    while (driver->count < BATCHES && wf_path_can_pull(&driver->path, CLASSES[i])) {
      struct batch *batch = &driver->batches[driver->count++];
      struct wf_reply reply = {0};
      if (wf_path_pull(&driver->path, CLASSES[i], &reply, &frames) || !reply.batch) return 0;
      memset(batch, 0, sizeof *batch);
      batch->exchange = reply.exchange;
      batch->planned = reply.air;
      batch->station = reply.station;
      batch->count = frames.count;
    }
  }
  return 1;
}

/* Notes a frame of a report, which is the one with this index in its batch. */
static int note_frame(struct driver *driver, const struct batch *batch, uint16_t index) {
  uint64_t number = 0;
  if (wf_path_frame_tag(&driver->path, batch->exchange, index, &number)) return 0;
  if (batch->outcomes[index] == WF_OUTCOME_UNSENT) driver->unsent++;
  else account_send(&driver->account, number);
  driver->given_up += batch->outcomes[index] == WF_OUTCOME_GAVE_UP;
  return 1;
}

/* Ends a batch of which all frames are reported. The last batch takes its place. */
static int end_batch(struct driver *driver, struct batch *batch) {
  struct wf_reply reply = {0};
  uint32_t air = batch->air < LONGEST ? batch->air : LONGEST;
  int32_t code;
  if (air == 0) code = wf_path_cancel(&driver->path, batch->exchange, &reply);
  else code = wf_path_done_each(&driver->path, batch->exchange, batch->outcomes, batch->count, air, &reply);
  driver->cancelled += air == 0;
  *batch = driver->batches[--driver->count];
  return code == WF_OK;
}

/* Lets a station sleep, or wakes it. The path may know already. */
static int set_asleep(struct driver *driver, uint16_t station, int is_asleep) {
  struct wf_reply reply = {0};
  int32_t code;
  if (is_asleep) code = wf_path_sleep(&driver->path, station, &reply);
  else code = wf_path_wake(&driver->path, station, &reply);
  return code == WF_OK || code == WF_ASLEEP || code == WF_AWAKE;
}

/* Handles a report, which may be the last of its batch. */
static int handle_report(struct driver *driver, const struct report *report) {
  struct batch *batch = &driver->batches[report->batch];
  struct wf_reply reply = {0};
  uint16_t i;
  driver->reports++;
  driver->time += report->air;
  if (wf_path_advance(&driver->path, driver->time, &reply)) return 0;
  if (report->is_asleep && !set_asleep(driver, batch->station, 1)) return 0;
  batch->air += report->air;
  for (i = 0; i < report->count; i++) {
    batch->outcomes[batch->reported] = report->outcomes[i];
    if (!note_frame(driver, batch, batch->reported++)) return 0;
  }
  return batch->reported < batch->count || end_batch(driver, batch);
}

/* Handles some reports, and reaps. Sleeping stations wake after that. */
static int handle_reports(struct driver *driver) {
  static struct report report;
  unsigned left = 1 + below(driver, 4);
  uint16_t station;
  for (; left > 0 && driver->count > 0; left--) {
    send_some(driver, &report);
    if (!handle_report(driver, &report)) return 0;
  }
  account_reap(&driver->account, &driver->path);
  for (station = 0; station < STATIONS; station++) {
    if (!set_asleep(driver, station, 0)) return 0;
  }
  return 1;
}

/* ---- the program */

static int open_driver(struct driver *driver) {
  struct wf_settings settings = {0};
  struct wf_reply reply = {0};
  uint16_t station;
  memset(driver, 0, sizeof *driver);
  driver->random = 1;
  wf_settings_device(&settings);
  settings.stations = STATIONS;
  settings.charge = LONGEST;
  if (wf_path_make(&driver->path, &settings)) return 0;
  for (station = 0; station < STATIONS; station++) {
    if (wf_path_join_offload(&driver->path, station, 3, 1, &reply)) return 0;
    if (wf_path_rate_he(&driver->path, station, (uint8_t)(9 - 3 * station), 80, 800, 1, &reply)) return 0;
  }
  return 1;
}

/* Gives packets while fewer than QUEUED are queued for a TID of a station. */
static int give_packets(struct driver *driver) {
  static const uint8_t TID[TIDS] = {0, 5};
  unsigned i;
  for (i = 0; i < STATIONS * TIDS; i++) {
    uint16_t station = (uint16_t)(i / TIDS);
    uint32_t queued = 0;
    while (driver->account.given < PACKETS) {
      if (wf_path_queued(&driver->path, station, TID[i % TIDS], &queued)) return 0;
      if (queued >= QUEUED) break;
      if (account_give(&driver->account, &driver->path, station, TID[i % TIDS])) return 0;
    }
  }
  return 1;
}

static int drive(struct driver *driver) {
  while (!account_is_closed(&driver->account)) {
    if (!give_packets(driver) || !fill_firmware(driver) || !handle_reports(driver)) return 0;
  }
  return account_fits(&driver->account, &driver->path) && driver->account.fates[WF_RETRIES] == driver->given_up;
}

int main(void) {
  static struct driver driver;
  int all;
  if (!open_driver(&driver)) return 1;
  all = drive(&driver);
  account_print(&driver.account, "firmware");
  printf("firmware: %u reports, %u tries, %u frames were given up, %u frames were not tried, %u batches were cancelled\n", driver.reports,
         driver.tries, driver.given_up, driver.unsent, driver.cancelled);
  wf_path_free(&driver.path);
  return !all;
}
