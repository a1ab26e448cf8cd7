/*
 * A driver over libwf that begins and ends block acknowledgement agreements under traffic. Its stations join without
 * agreements (wf_path_plain): each exchange is one frame, and ends by an Ack (wf_path_done_ack). To begin an
 * agreement, the driver holds the TID (wf_path_hold), and waits until no frame of it is on the air or waits to be sent
 * again (wf_path_drained). Then it sends an ADDBA request with the number that the hold returned. If the station
 * accepts, the agreement begins (wf_path_begin), and aggregates follow. If it declines, the TID is plain again
 * (wf_path_free_tid). If no response comes, the station may have accepted, so the driver sends a DELBA, and the TID is
 * plain again after its Ack. To end an agreement, the driver stops the station until no exchange is open, calls
 * wf_path_cease, which drops the frames that wait to be sent, and sends a DELBA. For another window it holds the TID
 * again before the next pull.
 */
#include <stdint.h>
#include <stdio.h>
#include <string.h>

#include "account.h"
#include "wf.h"

enum { STATIONS = 3, TID = 0, QUEUE = 4, MOST = 256, QUEUED = 48 };

/* A TID is plain, is held until its ADDBA request is answered, has an agreement, is stopped until its exchanges have
 * ended, or is held until its DELBA is acknowledged. */
enum phase { PLAIN, ASKING, AGREED, STOPPED, DELETING };

/* The response to an ADDBA request. */
enum response { ACCEPTED, DECLINED, NONE };

struct peer {
  enum phase phase;
  uint16_t start;  /* the first number of the agreement */
  uint16_t window; /* its window, in frames */
  uint8_t is_new;  /* 1 until the agreement has sent a frame */
};

/* An exchange in the queue of the device. */
struct job {
  uint64_t exchange;
  uint32_t air;
  uint16_t count; /* of transmissions */
  uint8_t request;
  uint8_t plain;
};

struct driver {
  struct wf_path path;
  struct account account;
  struct peer peers[STATIONS];
  struct job jobs[QUEUE];
  unsigned count;
  uint32_t random;
  uint64_t time; /* of the device, in microseconds */
  uint64_t ended;
  unsigned alone, aggregates, responses[3], resized, deleted;
};

static uint32_t below(struct driver *driver, uint32_t bound) {
  driver->random = driver->random * 1664525u + 1013904223u;
  return (driver->random >> 8) % bound;
}

/* ---- the link, which loses one of eight frames */

static int is_lost(struct driver *driver) { return below(driver, 8) == 0; }

/* Sends an ADDBA request, and returns the response of the station. */
static enum response send_request(struct driver *driver) {
  if (is_lost(driver) || is_lost(driver)) return NONE;
  return below(driver, 4) ? ACCEPTED : DECLINED;
}

/* ---- frames */

/* Notes an exchange for the device. The first frame of an agreement has the number of its ADDBA request. */
static int note_job(struct driver *driver, const struct wf_reply *reply, const struct wf_frames *frames) {
  struct peer *peer = &driver->peers[reply->station];
  struct job *job = &driver->jobs[driver->count++];
  job->exchange = reply->exchange;
  job->air = reply->air;
  job->count = reply->request ? 1 : frames->count;
  job->request = reply->request;
  job->plain = reply->plain;
  driver->alone += reply->plain;
  if (reply->plain) return peer->phase == PLAIN || peer->phase == ASKING;
  driver->aggregates += !reply->request;
  if (peer->is_new && frames->numbers[0] != peer->start) return 0;
  peer->is_new = 0;
  return peer->phase == AGREED;
}

static int fill_queue(struct driver *driver) {
  static struct wf_frames frames;
  while (driver->count < QUEUE && wf_path_can_pull(&driver->path, WF_BE)) {
    struct wf_reply reply = {0};
    if (wf_path_pull(&driver->path, WF_BE, &reply, &frames) || !note_job(driver, &reply, &frames)) return 0;
  }
  return 1;
}

/* Sends the first job of the queue, and ends its exchange: by an Ack, or by the outcome of each transmission. */
static int send_job(struct driver *driver) {
  struct job job = driver->jobs[0];
  struct wf_reply reply = {0};
  uint8_t outcomes[MOST];
  uint16_t index;
  memmove(driver->jobs, driver->jobs + 1, --driver->count * sizeof job);
  driver->time += job.air;
  if (wf_path_advance(&driver->path, driver->time, &reply)) return 0;
  for (index = 0; index < job.count; index++) {
    uint64_t number = 0;
    outcomes[index] = is_lost(driver) ? WF_OUTCOME_RETRY : WF_OUTCOME_ACKED;
    if (job.request) continue;
    if (wf_path_frame_tag(&driver->path, job.exchange, index, &number)) return 0;
    account_send(&driver->account, number);
  }
  if (job.plain) return wf_path_done_ack(&driver->path, job.exchange, outcomes[0] == WF_OUTCOME_ACKED, 0, &reply) == WF_OK;
  return wf_path_done_each(&driver->path, job.exchange, outcomes, job.count, 0, &reply) == WF_OK;
}

/* ---- agreements */

static int make_plain(struct driver *driver, uint16_t station) {
  struct wf_reply reply = {0};
  driver->peers[station].phase = PLAIN;
  return wf_path_free_tid(&driver->path, station, TID, &reply) == WF_OK;
}

/* Holds a plain TID for an agreement with a window of 8 to 256 frames. */
static int hold(struct driver *driver, uint16_t station) {
  struct peer *peer = &driver->peers[station];
  struct wf_reply reply = {0};
  if (wf_path_hold(&driver->path, station, TID, &reply)) return 0;
  peer->phase = ASKING;
  peer->start = reply.start;
  peer->window = (uint16_t)(8u << below(driver, 6));
  return 1;
}

static int begin(struct driver *driver, uint16_t station) {
  struct peer *peer = &driver->peers[station];
  struct wf_reply reply = {0};
  peer->phase = AGREED;
  peer->is_new = 1;
  return wf_path_begin(&driver->path, station, TID, peer->window, &reply) == WF_OK;
}

/* Sends the ADDBA request of a TID that is drained, and goes on by the response. */
static int ask(struct driver *driver, uint16_t station) {
  struct peer *peer = &driver->peers[station];
  uint32_t drained = 0;
  enum response response;
  if (wf_path_drained(&driver->path, station, TID, &drained)) return 0;
  if (!drained) return 1;
  response = send_request(driver);
  driver->responses[response]++;
  if (response == ACCEPTED) return begin(driver, station);
  if (response == DECLINED) return make_plain(driver, station);
  peer->phase = DELETING;
  return 1;
}

/* Stops a station: its open exchanges end, and no other one is opened. */
static int stop(struct driver *driver, uint16_t station) {
  struct wf_reply reply = {0};
  driver->peers[station].phase = STOPPED;
  return wf_path_stop(&driver->path, station, &reply) == WF_OK;
}

/* Ends the agreement of a station that is stopped, as soon as no exchange is open. */
static int end_agreement(struct driver *driver, uint16_t station) {
  struct wf_reply reply = {0};
  int32_t code = wf_path_cease(&driver->path, station, TID, &reply);
  if (code) return code == WF_OPEN;
  driver->ended += reply.count;
  driver->peers[station].phase = DELETING;
  return wf_path_start(&driver->path, station, &reply) == WF_OK;
}

/* Sends a DELBA. After its Ack the TID is plain, or is held at once for an agreement with another window. */
static int send_delba(struct driver *driver, uint16_t station) {
  if (is_lost(driver)) return 1;
  driver->deleted++;
  if (!make_plain(driver, station)) return 0;
  if (below(driver, 2)) return 1;
  driver->resized++;
  return hold(driver, station);
}

static int negotiate(struct driver *driver, uint16_t station) {
  switch (driver->peers[station].phase) {
    case PLAIN: return below(driver, 24) || hold(driver, station);
    case ASKING: return ask(driver, station);
    case AGREED: return below(driver, 24) || stop(driver, station);
    case STOPPED: return end_agreement(driver, station);
    default: return send_delba(driver, station);
  }
}

/* ---- the program */

static int open_driver(struct driver *driver) {
  struct wf_settings settings = {0};
  struct wf_reply reply = {0};
  uint16_t station;
  memset(driver, 0, sizeof *driver);
  driver->random = 1;
  wf_settings_device(&settings);
  settings.stations = STATIONS;
  if (wf_path_make(&driver->path, &settings)) return 0;
  for (station = 0; station < STATIONS; station++) {
    if (wf_path_plain(&driver->path, station, 4095, 3, 1, &reply)) return 0;
    if (wf_path_rate_vht(&driver->path, station, (uint8_t)(3 * station), 80, 0, 1, &reply)) return 0;
  }
  return 1;
}

/* Gives packets while fewer than QUEUED are queued for a station. */
static int give_packets(struct driver *driver, uint16_t station) {
  uint32_t queued = 0;
  while (driver->account.given < PACKETS) {
    if (wf_path_queued(&driver->path, station, TID, &queued)) return 0;
    if (queued >= QUEUED) break;
    if (account_give(&driver->account, &driver->path, station, TID)) return 0;
  }
  return 1;
}

static int drive(struct driver *driver) {
  while (!account_is_closed(&driver->account)) {
    uint16_t station;
    for (station = 0; station < STATIONS; station++) {
      if (!give_packets(driver, station) || !negotiate(driver, station)) return 0;
    }
    if (!fill_queue(driver) || (driver->count && !send_job(driver))) return 0;
    account_reap(&driver->account, &driver->path);
  }
  return account_fits(&driver->account, &driver->path) && driver->ended == driver->account.fates[WF_ENDED];
}

int main(void) {
  static struct driver driver;
  int all;
  if (!open_driver(&driver)) return 1;
  all = drive(&driver);
  account_print(&driver.account, "addba");
  printf("addba: %u frames went alone, and %u aggregates; %u requests were accepted, %u declined, %u without a response\n",
         driver.alone, driver.aggregates, driver.responses[ACCEPTED], driver.responses[DECLINED], driver.responses[NONE]);
  printf("addba: %lu frames were dropped as ended; %u DELBAs were acknowledged, and after %u the driver asked again\n",
         (unsigned long)driver.ended, driver.deleted, driver.resized);
  wf_path_free(&driver.path);
  return !all;
}
