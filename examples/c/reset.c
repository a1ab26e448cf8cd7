/*
 * A driver over libwf for a device that stops now and then. A watchdog finds that, and the driver resets the
 * device. The exchange that was on the air ends without a BlockAck (wf_path_done_lost). Nothing of the other
 * exchanges in the device was sent, so the driver cancels them (wf_path_cancel), and the device gets their frames
 * again. The frames of the class `vi` are too old after a reset, so the driver flushes their TID (wf_path_flush).
 * Each third reset also removes a station, which then joins again.
 */
#include <stdint.h>
#include <stdio.h>
#include <string.h>

#include "account.h"
#include "wf.h"

enum { STATIONS = 3, TIDS = 2, QUEUE = 8, MOST = 256, QUEUED = 32, LONGEST = 20000, VIDEO = 5 };

/* An exchange in the queue of the device. */
struct job {
  uint64_t exchange;
  uint32_t air; /* its computed airtime */
  uint16_t count;
  uint8_t request;
};

struct driver {
  struct wf_path path;
  struct account account;
  struct job jobs[QUEUE];
  unsigned count;
  uint32_t random;
  uint64_t time; /* of the device, in microseconds */
  unsigned resets, cancelled, flushed, left;
};

static uint32_t below(struct driver *driver, uint32_t bound) {
  driver->random = driver->random * 1664525u + 1013904223u;
  return (driver->random >> 8) % bound;
}

static int note_sent(struct driver *driver, const struct job *job) {
  uint16_t index;
  for (index = 0; index < job->count && !job->request; index++) {
    uint64_t number = 0;
    if (wf_path_frame_tag(&driver->path, job->exchange, index, &number)) return 0;
    account_send(&driver->account, number);
  }
  return 1;
}

/* ---- work without a reset */

/* Fills the queue of the device, and notes the exchanges. */
static int fill_queue(struct driver *driver) {
  static struct wf_frames frames;
  static const uint8_t CLASSES[] = {WF_VI, WF_BE};
  unsigned i;
  for (i = 0; i < sizeof CLASSES; i++) {
    while (driver->count < QUEUE && wf_path_can_pull(&driver->path, CLASSES[i])) {
      struct job *job = &driver->jobs[driver->count++];
      struct wf_reply reply = {0};
      struct wf_sent sent = {0};
      if (wf_path_pull(&driver->path, CLASSES[i], &reply, &frames)) return 0;
      if (wf_path_sent(&driver->path, reply.exchange, &sent)) return 0;
      job->exchange = reply.exchange;
      job->air = reply.air;
      job->count = sent.count;
      job->request = sent.request;
    }
  }
  return 1;
}

/* Takes the first job out of the queue. */
static struct job take_job(struct driver *driver) {
  struct job job = driver->jobs[0];
  driver->count--;
  memmove(driver->jobs, driver->jobs + 1, driver->count * sizeof job);
  return job;
}

/* Sends the first job of the queue, and ends its exchange by the outcomes. */
static int send_job(struct driver *driver) {
  struct job job = take_job(driver);
  struct wf_reply reply = {0};
  uint8_t outcomes[MOST];
  uint16_t index;
  for (index = 0; index < job.count; index++) outcomes[index] = below(driver, 8) ? WF_OUTCOME_ACKED : WF_OUTCOME_RETRY;
  driver->time += job.air;
  if (!note_sent(driver, &job) || wf_path_advance(&driver->path, driver->time, &reply)) return 0;
  return wf_path_done_each(&driver->path, job.exchange, outcomes, job.count, 0, &reply) == WF_OK;
}

/* ---- a reset */

/* Ends all exchanges that the device has: the first was on the air, and the others were not. */
static int end_all(struct driver *driver) {
  struct wf_reply reply = {0};
  struct job job = take_job(driver);
  if (!note_sent(driver, &job) || wf_path_done_lost(&driver->path, job.exchange, job.air, &reply)) return 0;
  while (driver->count) {
    job = take_job(driver);
    if (wf_path_cancel(&driver->path, job.exchange, &reply)) return 0;
    if (reply.acked || reply.failed || reply.waiting != (job.request ? 0 : job.count)) return 0;
    driver->cancelled++;
  }
  return wf_path_open_count(&driver->path) == 0;
}

/* Drops all video frames of a station: none is queued or waits after that. */
static int flush_video(struct driver *driver, uint16_t station) {
  struct wf_reply reply = {0};
  uint32_t queued = 1, waiting = 1, before = 0, also = 0;
  if (wf_path_queued(&driver->path, station, VIDEO, &before) || wf_path_waiting(&driver->path, station, VIDEO, &also)) return 0;
  if (wf_path_flush(&driver->path, station, VIDEO, &reply) || reply.count != before + also) return 0;
  driver->flushed += reply.count;
  if (wf_path_queued(&driver->path, station, VIDEO, &queued) || wf_path_waiting(&driver->path, station, VIDEO, &waiting)) return 0;
  return queued == 0 && waiting == 0;
}

static int join(struct driver *driver, uint16_t station) {
  struct wf_reply reply = {0};
  if (wf_path_join(&driver->path, station, 64, 0, 3, 1, &reply)) return 0;
  return wf_path_rate_vht(&driver->path, station, (uint8_t)(3 * station), 80, 0, 1, &reply) == WF_OK;
}

/* Removes a station, and lets it join again. */
static int replace_station(struct driver *driver, uint16_t station) {
  struct wf_reply reply = {0};
  if (wf_path_leave(&driver->path, station, &reply)) return 0;
  driver->left += reply.count;
  return join(driver, station);
}

static int reset(struct driver *driver) {
  uint16_t station;
  driver->resets++;
  if (!end_all(driver)) return 0;
  for (station = 0; station < STATIONS; station++) {
    if (!flush_video(driver, station)) return 0;
  }
  return driver->resets % 3 || replace_station(driver, (uint16_t)(driver->resets / 3 % STATIONS));
}

/* ---- the program */

static int open_driver(struct driver *driver) {
  struct wf_settings settings = {0};
  uint16_t station;
  memset(driver, 0, sizeof *driver);
  driver->random = 1;
  wf_settings_device(&settings);
  settings.stations = STATIONS;
  settings.charge = LONGEST;
  if (wf_path_make(&driver->path, &settings)) return 0;
  for (station = 0; station < STATIONS; station++) {
    if (!join(driver, station)) return 0;
  }
  return 1;
}

/* Gives packets while fewer than QUEUED are queued for a TID of a station. */
static int give_packets(struct driver *driver) {
  static const uint8_t TID[TIDS] = {0, VIDEO};
  unsigned i;
  for (i = 0; i < STATIONS * TIDS; i++) {
    uint16_t station = (uint16_t)(i / TIDS);
    uint32_t queued = 0;
    while (driver->account.given < PACKETS) {
      if (wf_path_queued(&driver->path, station, TID[i % TIDS], &queued)) return 0;
      if (queued >= QUEUED) break;
      if (account_give(&driver->account, &driver->path, station, TID[i % TIDS])) return 0;
    }
  }
  return 1;
}

/* Lets the device send an exchange, or now and then stop. */
static int work(struct driver *driver) {
  if (driver->count == 0) return 1;
  return below(driver, 16) ? send_job(driver) : reset(driver);
}

static int drive(struct driver *driver) {
  while (!account_is_closed(&driver->account)) {
    if (!give_packets(driver) || !fill_queue(driver) || !work(driver)) return 0;
    account_reap(&driver->account, &driver->path);
  }
  return account_fits(&driver->account, &driver->path) && driver->flushed == driver->account.fates[WF_FLUSHED] &&
         driver->left == driver->account.fates[WF_LEFT];
}

int main(void) {
  static struct driver driver;
  int all;
  if (!open_driver(&driver)) return 1;
  all = drive(&driver);
  account_print(&driver.account, "reset");
  printf("reset: %u resets, %u exchanges were cancelled\n", driver.resets, driver.cancelled);
  wf_path_free(&driver.path);
  return !all;
}
