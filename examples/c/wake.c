/*
 * A driver over libwf as its author would write it, with a small model of a device. The device has a hardware
 * queue for each class, and works by itself on a thread, as by interrupts: it sends the jobs in its queues,
 * repeats lost transmissions, measures their airtime, and makes the station's BlockAck. The access point and
 * the stations have their own addresses, which the driver sets. One lock protects the path. Each packet is in
 * a buffer of a pool; its tag is the number of the buffer, which is free again after the frame is reaped. The
 * device gathers: the path has no octets of a packet, and writes only headers. The memory for its frames is
 * taken before the lock is used. The upper queue, from which packets come, is stopped while a station's TID
 * has many queued frames or no buffer is free, and is woken when it may continue.
 */
#include <pthread.h>
#include <stdint.h>
#include <stdio.h>
#include <string.h>

#include "wf.h"

enum { STATIONS = 4, CLASSES = 4, DEPTH = 2, PACKETS = 4000, BUFFERS = 512, STOP_AT = 64, WAKE_AT = 32, TRIES = 3, LONGEST = 20000 };

/* An exchange in a hardware queue: what the device needs to send it, and to make its BlockAck. */
struct job {
  uint64_t exchange;
  uint32_t air; /* the airtime of sending it once */
  uint16_t station;
  uint16_t count;
  uint8_t request;
  uint8_t tid;
  uint8_t head[WF_HEADER]; /* the header of its first transmission */
  uint16_t numbers[256]; /* the sequence numbers of its frames */
};

/* The result of a job. */
struct outcome {
  int heard;
  uint32_t air;
  uint8_t answer[28];
};

struct hardware {
  struct job jobs[CLASSES][DEPTH];
  int count[CLASSES];
};

/* The buffers for packets, and the numbers of those that are free. */
struct pool {
  uint8_t octets[BUFFERS][1500];
  uint16_t station[BUFFERS]; /* the station of the packet in a buffer, or NOBODY */
  uint16_t free[BUFFERS];
  unsigned count;
};

struct driver {
  pthread_mutex_t lock;   /* protects all fields below */
  pthread_cond_t kick;    /* the device has something to send, or nothing more will come */
  pthread_cond_t wake;    /* the upper queue may continue */
  struct wf_path path;
  struct hardware hardware;
  struct pool pool;
  uint64_t time;          /* of the air, in microseconds */
  int is_closing, has_failed;
  unsigned stops, acked, dropped;
  uint64_t measured, computed; /* airtime, in microseconds */
};

/* The station of a free buffer. */
static const uint16_t NOBODY = UINT16_MAX;

/* The addresses of the access point and of the first station; each later station's is one more. */
static const uint8_t BASE[6] = {0x00, 0x00, 0x5e, 0x00, 0x53, 0x00}, FIRST[6] = {0x00, 0x00, 0x5e, 0x00, 0x53, 0x10};

static void write_address(uint16_t station, uint8_t address[6]) {
  memcpy(address, FIRST, 6);
  address[5] = (uint8_t)(address[5] + station);
}

static uint32_t next_random(uint32_t *random) {
  *random = *random * 1664525u + 1013904223u;
  return *random >> 16;
}

/* ---- the device, which does not use the path */

static unsigned number_at(const uint8_t *octets) { return (unsigned)(octets[0] | octets[1] << 8) >> 4; }

/* Begins the station's BlockAck to a job, without any bit. */
static void start_answer(const struct job *job, uint8_t answer[28]) {
  memset(answer, 0, 28);
  answer[0] = 0x94;
  memcpy(answer + 4, BASE, 6);
  write_address(job->station, answer + 10); /* the station's own address, whatever the job has */
  answer[16] = 0x04;                        /* compressed */
  answer[17] = (uint8_t)(job->tid << 4);
  memcpy(answer + 18, job->head + (job->request ? 18 : 22), 2);
}

/* Returns whether a job goes from the access point to its station; others would not hear it. */
static int is_addressed(const struct job *job) {
  uint8_t own[6];
  write_address(job->station, own);
  return memcmp(job->head + 4, own, 6) == 0 && memcmp(job->head + 10, BASE, 6) == 0;
}

/* Sends a job once, and sets the bit of each frame that arrives. Returns whether the answer was heard. */
static int send_once(const struct job *job, uint8_t answer[28], uint32_t *random) {
  int i, any = 0;
  for (i = 0; i < job->count && is_addressed(job); i++) {
    unsigned offset;
    if (next_random(random) % 8 == 0) continue;
    any = 1;
    if (job->request) continue;
    offset = (job->numbers[i] - number_at(answer + 18)) & 4095u;
    answer[20 + offset / 8] |= (uint8_t)(1 << offset % 8);
  }
  return any && next_random(random) % 16;
}

/* Sends a job until its answer is heard, and measures the airtime with a random wait before each try. */
static void send_job(const struct job *job, struct outcome *outcome, uint32_t *random) {
  int tries;
  outcome->heard = 0;
  outcome->air = 0;
  start_answer(job, outcome->answer);
  for (tries = 0; tries < TRIES && !outcome->heard; tries++) {
    outcome->air += job->air + 9 * (next_random(random) % 16);
    outcome->heard = send_once(job, outcome->answer, random);
  }
  if (outcome->air > LONGEST) outcome->air = LONGEST;
}

/* ---- the driver, under its lock */

/* Writes the header of an exchange's first frame, or its BlockAckReq, which has no body. The device takes the
 * body of each frame from the buffer that its tag names. */
static int write_head(const struct wf_path *path, uint64_t exchange, uint8_t request, uint8_t head[WF_HEADER]) {
  size_t size = 0;
  if (request) return wf_path_mpdu(path, exchange, 0, head, WF_HEADER, &size) == WF_OK;
  return wf_path_header(path, exchange, 0, head) == WF_OK;
}

/* Puts a pulled exchange into the hardware queue of its class. */
static int hand_over(struct driver *driver, int access, const struct wf_reply *reply, const struct wf_frames *frames) {
  struct job *job = &driver->hardware.jobs[access][driver->hardware.count[access]];
  struct wf_sent sent = {0};
  if (wf_path_sent(&driver->path, reply->exchange, &sent)) return 0;
  if (!write_head(&driver->path, reply->exchange, sent.request, job->head)) return 0;
  job->exchange = reply->exchange;
  job->air = reply->air;
  job->station = sent.station;
  job->count = sent.count;
  job->request = sent.request;
  job->tid = sent.tid;
  memcpy(job->numbers, frames->numbers, sizeof job->numbers);
  driver->hardware.count[access]++;
  return 1;
}

/* Fills the hardware queues, the most urgent first, while there is something to send. */
static int fill_hardware(struct driver *driver) {
  static struct wf_frames frames;
  int access;
  for (access = CLASSES - 1; access >= 0; access--) {
    while (driver->hardware.count[access] < DEPTH && wf_path_can_pull(&driver->path, (uint8_t)access)) {
      struct wf_reply reply = {0};
      if (wf_path_pull(&driver->path, (uint8_t)access, &reply, &frames)) return 0;
      if (!hand_over(driver, access, &reply, &frames)) return 0;
      pthread_cond_signal(&driver->kick);
    }
  }
  return 1;
}

/* Takes a free buffer for a packet, and returns its number. */
static uint16_t take_buffer(struct pool *pool, uint16_t station) {
  uint16_t number = pool->free[--pool->count];
  pool->station[number] = station;
  memset(pool->octets[number], number & 255, sizeof pool->octets[number]);
  return number;
}

/* Frees the buffer with this number. Returns 0 if it has no packet for the station. */
static int give_back(struct pool *pool, uint64_t number, uint16_t station) {
  if (number >= BUFFERS || pool->station[number] != station) return 0;
  pool->station[number] = NOBODY;
  pool->free[pool->count++] = (uint16_t)number;
  return 1;
}

/* Reaps the finished frames, and frees the buffers of their tags. */
static int reap_all(struct driver *driver) {
  struct wf_reply reply = {0};
  struct wf_taken taken = {0};
  while (wf_path_reap(&driver->path, &reply, &taken, NULL, 0) == WF_OK) {
    if (!give_back(&driver->pool, taken.tag, taken.station)) return 0;
    if (taken.fate == WF_ACKED) driver->acked++;
    else driver->dropped++;
  }
  return 1;
}

/* Ends the exchange of a finished job by its BlockAck and its measured airtime, and moves the clock on. */
static int finish(struct driver *driver, const struct job *job, const struct outcome *outcome) {
  struct wf_reply reply = {0};
  int32_t code;
  driver->time += outcome->air;
  driver->measured += outcome->air;
  driver->computed += job->air;
  if (wf_path_advance(&driver->path, driver->time, &reply)) return 0;
  if (outcome->heard) {
    code = wf_path_done_octets(&driver->path, job->exchange, outcome->answer, sizeof outcome->answer, outcome->air, &reply);
  } else {
    code = wf_path_done_lost(&driver->path, job->exchange, outcome->air, &reply);
  }
  if (code || !reap_all(driver)) return 0;
  pthread_cond_signal(&driver->wake);
  return fill_hardware(driver);
}

/* Takes the first job of the most urgent hardware queue. Returns 0 if all are empty. */
static int take_job(struct driver *driver, struct job *job) {
  int access;
  for (access = CLASSES - 1; access >= 0; access--) {
    struct job *jobs = driver->hardware.jobs[access];
    if (driver->hardware.count[access] == 0) continue;
    *job = jobs[0];
    memmove(jobs, jobs + 1, (DEPTH - 1) * sizeof *jobs);
    driver->hardware.count[access]--;
    return 1;
  }
  return 0;
}

/* ---- the two threads */

/* The thread of the device, until nothing more will come. It releases the lock while it sends. */
static void *interrupts(void *given) {
  struct driver *driver = given;
  struct outcome outcome;
  struct job job;
  uint32_t random = 1;
  pthread_mutex_lock(&driver->lock);
  /* it starts when the upper queue is stopped for the first time, so every run stops and wakes that queue */
  while (!driver->stops && !driver->is_closing) pthread_cond_wait(&driver->kick, &driver->lock);
  while (!driver->has_failed) {
    if (take_job(driver, &job)) {
      pthread_mutex_unlock(&driver->lock);
      send_job(&job, &outcome, &random);
      pthread_mutex_lock(&driver->lock);
      if (!finish(driver, &job, &outcome)) driver->has_failed = 1;
    } else if (driver->is_closing) {
      break;
    } else {
      pthread_cond_wait(&driver->kick, &driver->lock);
    }
  }
  pthread_cond_signal(&driver->wake);
  pthread_mutex_unlock(&driver->lock);
  return NULL;
}

/* Returns whether the upper queue may pass on a packet for a station's TID: fewer than `most` are queued, and
 * a buffer is free. */
static int has_place(const struct driver *driver, uint16_t station, uint8_t tid, uint32_t most) {
  uint32_t queued = 0;
  if (wf_path_queued(&driver->path, station, tid, &queued)) return 0;
  return driver->pool.count > 0 && queued < most;
}

/* Stops the upper queue, if necessary, until it is woken and may continue. */
static void wait_for_place(struct driver *driver, uint16_t station, uint8_t tid) {
  if (has_place(driver, station, tid, STOP_AT)) return;
  driver->stops++;
  pthread_cond_signal(&driver->kick);
  while (!driver->has_failed && !has_place(driver, station, tid, WAKE_AT)) pthread_cond_wait(&driver->wake, &driver->lock);
}

/* Enqueues a packet, with the upper queue's own address as its source, and the number of its buffer as its
 * tag. */
static int hand_in(struct driver *driver, uint16_t station, uint8_t tid) {
  static const uint8_t HOST[6] = {0x0a, 0x00, 0x5e, 0x00, 0x53, 0x01};
  struct wf_reply reply = {0};
  struct wf_bare packet = {0};
  packet.tag = take_buffer(&driver->pool, station);
  packet.length = sizeof driver->pool.octets[packet.tag];
  packet.flow = station;
  packet.tid = tid;
  memcpy(packet.source, HOST, sizeof packet.source);
  if (wf_path_enqueue_bare(&driver->path, station, &packet, &reply) == WF_OK) return 1;
  give_back(&driver->pool, packet.tag, station);
  return 0;
}

/* Takes a packet from above. */
static int take_packet(struct driver *driver, uint16_t station, uint8_t tid) {
  int all;
  pthread_mutex_lock(&driver->lock);
  wait_for_place(driver, station, tid);
  if (!driver->has_failed && (!hand_in(driver, station, tid) || !fill_hardware(driver))) driver->has_failed = 1;
  all = !driver->has_failed;
  pthread_mutex_unlock(&driver->lock);
  return all;
}

/* ---- the program */

/* Makes a station join, with its own address. */
static int open_station(struct wf_path *path, uint16_t station) {
  struct wf_reply reply = {0};
  uint8_t address[6];
  write_address(station, address);
  if (wf_path_set_address(path, station, address)) return 0;
  if (wf_path_join(path, station, 64, 0, 3, 1, &reply)) return 0;
  return wf_path_rate_he(path, station, (uint8_t)(2 * station + 1), 20, 800, 1, &reply) == WF_OK;
}

static int open_driver(struct driver *driver) {
  struct wf_settings settings = {0};
  uint16_t station, number;
  memset(driver, 0, sizeof *driver);
  for (number = 0; number < BUFFERS; number++) {
    driver->pool.station[number] = NOBODY;
    driver->pool.free[driver->pool.count++] = number;
  }
  if (pthread_mutex_init(&driver->lock, NULL)) return 0;
  if (pthread_cond_init(&driver->kick, NULL) || pthread_cond_init(&driver->wake, NULL)) return 0;
  wf_settings_standard(&settings);
  settings.stations = STATIONS;
  settings.inflight = DEPTH + 1; /* one more is on the air */
  settings.charge = LONGEST;     /* the device gives the measured airtime */
  if (wf_path_make(&driver->path, &settings) || wf_path_set_base(&driver->path, BASE)) return 0;
  if (wf_path_reserve(&driver->path, BUFFERS)) return 0; /* a frame for each buffer */
  for (station = 0; station < STATIONS; station++) {
    if (!open_station(&driver->path, station)) return 0;
  }
  return 1;
}

static int drive(struct driver *driver) {
  static const uint8_t TIDS[] = {0, 0, 0, 5, 0, 0, 6, 1};
  pthread_t device;
  uint32_t random = 2;
  int i, all = 1;
  if (pthread_create(&device, NULL, interrupts, driver)) return 0;
  for (i = 0; all && i < PACKETS; i++) {
    all = take_packet(driver, (uint16_t)(next_random(&random) % STATIONS), TIDS[next_random(&random) % 8]);
  }
  pthread_mutex_lock(&driver->lock);
  driver->is_closing = 1;
  pthread_cond_signal(&driver->kick);
  pthread_mutex_unlock(&driver->lock);
  return pthread_join(device, NULL) == 0 && all && !driver->has_failed;
}

/* Prints what does not depend on how the threads meet, and returns whether all of it is as expected. */
static int report(const struct driver *driver) {
  unsigned back = driver->acked + driver->dropped, inside = BUFFERS - driver->pool.count;
  int is_measured = driver->measured > driver->computed;
  printf("wake: %d packets, %u came back, %u are inside, %d exchanges are open\n", PACKETS, back, inside,
         (int)wf_path_open_count(&driver->path));
  printf("wake: the upper queue was %s; what was measured is %s what was computed\n", driver->stops ? "stopped and woken" : "never stopped",
         is_measured ? "more than" : "not more than");
  return back == PACKETS && inside == 0 && driver->stops && is_measured && wf_path_now(&driver->path) == driver->time;
}

int main(void) {
  static struct driver driver;
  int all;
  if (!open_driver(&driver)) return 1;
  all = drive(&driver) && report(&driver);
  wf_path_free(&driver.path);
  pthread_cond_destroy(&driver.wake);
  pthread_cond_destroy(&driver.kick);
  pthread_mutex_destroy(&driver.lock);
  return !all;
}
