/*
 * Makes random calls of a path through libwf, and writes their trace and the library's answers, in the words
 * of docs/TRACE.md. The output of `wf replay` for the trace has to equal these answers; checks/c-library
 * compares them.
 *
 *   same CALLS SEED TRACE ANSWERS
 *
 * A replay has receivers, and a path does not. So this program keeps what arrives at a station, and passes it
 * to the library in BlockAcks and Acks, or as an outcome of each transmission. Only the receivers answer `arrive`
 * and `answer`, so these lines of the answers are `?`; and only they know which frames they pass up when an
 * agreement ends, so the answer to `cease` ends with `?`. An end by outcomes has a line for each mark that it sets.
 */
#include <stdint.h>
#include <stdio.h>
#include <stdlib.h>
#include <string.h>

#include "words.h"
#include "wf.h"

enum { STATIONS = 6, NUMBERS = 4096, OPEN = 32, CHARGE = 5000, DEBT = 9000, TICK = 10000000, ATTEMPTS = 4 };
enum { FLOWS = 32, SETTINGS = 28, IDS = 1 << 20, AIDS = 2008, DTIM = 3, BUFFERED = 4, BSSES = 3 };

/* An open exchange. */
struct exchange {
  uint64_t number;
  uint16_t station;
  uint8_t tid;
  uint8_t request;
  uint8_t batch;
  uint8_t plain;
  uint8_t eosp;
  uint8_t more;
  uint32_t air;
  uint16_t start; /* of its BlockAckReq */
  struct wf_frames frames;
  uint8_t unsent[256]; /* by transmission: 1 if it is marked as one that never went on the air */
  uint16_t marks;      /* how many transmissions have a mark */
};

/* A TID of a station: for each sequence number its frame, as id + 1, and whether it arrived. */
struct session {
  uint64_t ids[NUMBERS];
  uint8_t arrived[NUMBERS];
};

static struct wf_path path;
static uint8_t base[6] = {0x02}, addresses[STATIONS][6], bsses[BSSES][6];
static uint8_t has_address[BSSES];  /* by BSS: 1 if wf_path_set_bss has set its own */
static uint8_t station_bss[STATIONS]; /* the BSS of each station */
static uint16_t aids[STATIONS];
static struct wf_reply reply;
static struct exchange exchanges[OPEN];
static int open_count;
static struct session sessions[STATIONS][8];
static uint16_t windows[STATIONS][8]; /* 1 without an agreement */
static uint8_t given_up[IDS]; /* by id: 1 if a transmission of the frame was given up */
static struct wf_group group_frames[BSSES]; /* the group frame on the air, by BSS */
static uint8_t dtim_counts[BSSES], announced[BSSES]; /* what the latest beacon said, by BSS */
static uint32_t seed;
static long lines;
static FILE *trace, *answers;

static uint32_t below(uint32_t n) {
  seed = seed * 1664525u + 1013904223u;
  return (seed >> 8) % n;
}

static void fail(const char *what) {
  fprintf(stderr, "same: %s\n", what);
  exit(1);
}

/* Writes the answer to the last call, and counts its line. */
static void write_answer(int32_t code, const struct wf_frames *frames) {
  lines++;
  if (code != reply.refusal) fail("a code that is not the reply's");
  if (reply.kind == WF_KIND_CEASED) fprintf(answers, "ceased %lu ?\n", (unsigned long)reply.count);
  else if (!write_words(answers, &reply, frames)) fail("an answer of no path");
}

/* Writes a line of the trace that only the receivers answer. */
static void receivers_line(const char *word, uint64_t exchange, int index) {
  fprintf(trace, index < 0 ? "%s %llu\n" : "%s %llu %d\n", word, (unsigned long long)exchange, index);
  fprintf(answers, "?\n");
  lines++;
}

/* Notes that a station joined: it is of BSS 0. All its TIDs have this window. */
static void note_join(uint16_t s, uint16_t window) {
  int tid;
  station_bss[s] = 0;
  for (tid = 0; tid < 8; tid++) windows[s][tid] = window;
}

static void call_join(uint16_t s) {
  uint16_t window = (uint16_t)(below(4) ? 1 + below(64) : 1 + below(257)), start = (uint16_t)below(4100);
  uint8_t exponent = (uint8_t)below(5), weight = (uint8_t)below(18);
  int32_t code = wf_path_join(&path, s, window, start, exponent, weight, &reply);
  fprintf(trace, "join %u %u %u %u %u\n", (unsigned)s, (unsigned)window, (unsigned)start, (unsigned)exponent, (unsigned)weight);
  if (code == WF_OK) note_join(s, window);
  write_answer(code, NULL);
}

static void call_plain(uint16_t s) {
  uint16_t start = (uint16_t)below(4100);
  uint8_t exponent = (uint8_t)below(5), weight = (uint8_t)below(18);
  int32_t code = wf_path_plain(&path, s, start, exponent, weight, &reply);
  fprintf(trace, "plain %u %u %u %u\n", (unsigned)s, (unsigned)start, (unsigned)exponent, (unsigned)weight);
  if (code == WF_OK) note_join(s, 1);
  write_answer(code, NULL);
}

static void call_join_offload(uint16_t s) {
  uint8_t exponent = (uint8_t)below(5), weight = (uint8_t)below(18);
  int32_t code = wf_path_join_offload(&path, s, exponent, weight, &reply);
  fprintf(trace, "offload %u %u %u\n", (unsigned)s, (unsigned)exponent, (unsigned)weight);
  if (code == WF_OK) station_bss[s] = 0;
  write_answer(code, NULL);
}

/* Returns the octets that a live station has in the queues. */
static uint64_t queued_octets(uint16_t s) {
  uint64_t all = 0, octets = 0;
  uint32_t queued = 0;
  uint8_t tid;
  for (tid = 0; tid < 8; tid++) {
    if (wf_path_octets(&path, s, tid, &octets) || wf_path_queued(&path, s, tid, &queued)) fail("no octets of a live station");
    if (octets < queued || octets > (uint64_t)queued * WF_GREATEST_BODY) fail("more or fewer octets than the frames have");
    all += octets;
  }
  return all;
}

/* Checks that the queues together have the octets of all stations, and that CoDel dropped the frames of the
 * tally. */
static void look_at_queues(void) {
  struct wf_codel codel = {0};
  struct wf_tally tally = {0};
  uint64_t all = 0, dropped = 0;
  uint32_t queue;
  uint16_t s;
  for (queue = 0; wf_path_codel(&path, queue, &codel) == WF_OK; queue++) {
    if (codel.dropping > 1 || codel.drop_count < codel.dropping) fail("a queue that drops, and has dropped nothing");
    all += codel.octets;
    dropped += codel.dropped;
  }
  wf_path_tally(&path, &tally);
  if (dropped != tally.codel) fail("another number of frames that CoDel dropped");
  if (queue != FLOWS + 8 * STATIONS) fail("another number of queues");
  for (s = 0; s < STATIONS; s++) {
    if (wf_path_live(&path, s)) all -= queued_octets(s);
  }
  if (all != 0) fail("octets of no station");
}

/* Compares the readers of a live station's TID, and of its class, with the open exchanges. */
static void look_at_tid(uint16_t s, uint8_t tid) {
  static const uint8_t class_of[8] = {WF_BE, WF_BK, WF_BK, WF_BE, WF_VI, WF_VI, WF_VO, WF_VO};
  uint32_t wanted = 0, flying = 0, waiting = 0, drained = 2, owed = 0, air = 0;
  int i;
  for (i = 0; i < open_count; i++) {
    if (exchanges[i].station != s) continue;
    if (exchanges[i].tid == tid) wanted += exchanges[i].frames.count;
    if (class_of[exchanges[i].tid] == class_of[tid]) owed += exchanges[i].air;
  }
  if (wf_path_pending(&path, s, class_of[tid], &air) || air != owed) fail("another airtime in flight");
  if (wf_path_flying(&path, s, tid, &flying) || flying != wanted) fail("another number of frames on the air");
  if (wf_path_waiting(&path, s, tid, &waiting) || wf_path_drained(&path, s, tid, &drained)) fail("no count of a live station");
  if (drained != (flying == 0 && waiting == 0)) fail("drained, and not drained");
}

static void call_begin(uint16_t s, uint8_t tid) {
  uint16_t window = (uint16_t)(below(4) ? 1 + below(64) : below(258));
  int32_t code = wf_path_begin(&path, s, tid, window, &reply);
  fprintf(trace, "begin %u %u %u\n", (unsigned)s, (unsigned)tid, (unsigned)window);
  if (code == WF_OK) windows[s][tid] = window;
  write_answer(code, NULL);
}

static void call_cease(uint16_t s, uint8_t tid) {
  int32_t code = wf_path_cease(&path, s, tid, &reply);
  fprintf(trace, "cease %u %u\n", (unsigned)s, (unsigned)tid);
  if (code == WF_OK) windows[s][tid] = 1;
  write_answer(code, NULL);
}

/* Changes the mode of a TID, sometimes of one that is in another mode. */
static void call_mode(uint16_t s) {
  uint8_t tid = (uint8_t)below(below(50) ? 8 : 10);
  int32_t code;
  if (tid < 8 && wf_path_live(&path, s)) look_at_tid(s, tid);
  if (below(16) == 0) look_at_queues();
  switch (below(5)) {
    case 0:
      code = wf_path_hold(&path, s, tid, &reply);
      fprintf(trace, "hold %u %u\n", (unsigned)s, (unsigned)tid);
      write_answer(code, NULL);
      break;
    case 1:
      code = wf_path_free_tid(&path, s, tid, &reply);
      fprintf(trace, "free %u %u\n", (unsigned)s, (unsigned)tid);
      write_answer(code, NULL);
      break;
    case 2: call_cease(s, tid); break;
    default: call_begin(s, tid); break;
  }
}

/* Returns a width in MHz, sometimes one that no format has. */
static uint8_t some_width(void) {
  static const uint8_t WIDTHS[] = {20, 40, 80, 160};
  return below(9) ? WIDTHS[below(4)] : 30;
}

static void call_rate(uint16_t s) {
  uint8_t mcs = (uint8_t)below(17), mhz = some_width(), short_guard = (uint8_t)below(2);
  int32_t code = wf_path_rate_ht(&path, s, mcs, mhz, short_guard, &reply);
  fprintf(trace, "rate %u %u %u %s\n", (unsigned)s, (unsigned)mcs, (unsigned)mhz, GUARDS[short_guard]);
  write_answer(code, NULL);
}

static void call_rate_vht(uint16_t s) {
  uint8_t mcs = (uint8_t)below(11), mhz = some_width(), short_guard = (uint8_t)below(2), streams = (uint8_t)below(10);
  int32_t code = wf_path_rate_vht(&path, s, mcs, mhz, short_guard, streams, &reply);
  fprintf(trace, "rate %u vht %u %u %s %u\n", (unsigned)s, (unsigned)mcs, (unsigned)mhz, GUARDS[short_guard], (unsigned)streams);
  write_answer(code, NULL);
}

static void call_rate_he(uint16_t s) {
  uint8_t mcs = (uint8_t)below(13), mhz = some_width(), streams = (uint8_t)below(10);
  uint16_t guard = (uint16_t)(below(9) ? 800 << below(3) : 400);
  int32_t code = wf_path_rate_he(&path, s, mcs, mhz, guard, streams, &reply);
  fprintf(trace, "rate %u he %u %u %u %u\n", (unsigned)s, (unsigned)mcs, (unsigned)mhz, (unsigned)guard, (unsigned)streams);
  write_answer(code, NULL);
}

/* Sets a rate of OFDM or DSSS, sometimes one that does not exist. */
static void call_rate_legacy(uint16_t s) {
  static const uint8_t OFDM[] = {6, 9, 12, 18, 24, 36, 48, 54}, DSSS[] = {2, 4, 11, 22};
  uint8_t speed = (uint8_t)below(256);
  int is_bad = below(9) == 0;
  int32_t code;
  if (below(2)) {
    if (!is_bad) speed = OFDM[speed % 8];
    code = wf_path_rate_ofdm(&path, s, speed, &reply);
    fprintf(trace, "rate %u ofdm %u\n", (unsigned)s, (unsigned)speed);
  } else {
    if (!is_bad) speed = DSSS[speed % 4];
    code = wf_path_rate_dsss(&path, s, speed, &reply);
    fprintf(trace, "rate %u dsss %u\n", (unsigned)s, (unsigned)speed);
  }
  write_answer(code, NULL);
}

/* The tag of a packet has its other fields. */
static uint64_t tag_of(uint16_t s, uint8_t tid, uint32_t flow, size_t length) {
  return (uint64_t)s << 48 | (uint64_t)tid << 40 | (uint64_t)flow << 16 | (uint64_t)length;
}

/* The source of a flow's packets. Every fourth flow has six zeros, which mean the placeholder. */
static void write_source(uint32_t flow, uint8_t source[6]) {
  memset(source, 0, 6);
  if (flow % 4) source[0] = 0x0a;
  if (flow % 4) source[5] = (uint8_t)flow;
}

static void call_enqueue(uint16_t s) {
  uint8_t body[WF_GREATEST_BODY];
  struct wf_packet packet = {0};
  size_t length = 1 + below(below(4) ? 200 : WF_GREATEST_BODY), j;
  int32_t code;
  packet.body = body;
  packet.tid = (uint8_t)below(below(50) ? 8 : 10);
  packet.flow = below(20);
  packet.tag = tag_of(s, packet.tid, packet.flow, length);
  write_source(packet.flow, packet.source);
  for (j = 0; j < length; j++) body[j] = (uint8_t)(packet.flow + j);
  if (wf_path_enqueue(&path, s, &packet, &reply) != WF_BAD_LENGTH) fail("a body of no octet is taken");
  packet.length = length;
  code = wf_path_enqueue(&path, s, &packet, &reply);
  if (code == WF_NO_MEMORY) fail("out of memory");
  fprintf(trace, "enq %u %u %lu %lu\n", (unsigned)s, (unsigned)packet.tid, (unsigned long)packet.flow, (unsigned long)length);
  write_answer(code, NULL);
}

/* Returns whether a frame has the source of its flow's packets. */
static int has_source(uint32_t flow, const uint8_t source[6]) {
  static const uint8_t MADE_UP[6] = {0x02, 0, 0, 0x02, 0, 0};
  uint8_t wanted[6];
  write_source(flow, wanted);
  return memcmp(source, flow % 4 ? wanted : MADE_UP, 6) == 0;
}

/* Sets the address of the access point or of a station; sometimes a group address, or one for a station
 * number that does not exist. The trace does not have it, because it is not a call of the machine. */
static void call_address(void) {
  uint8_t address[6] = {(uint8_t)below(256), 0, 0x5e, 0, 0x53, (uint8_t)below(256)}, told[6] = {0};
  uint16_t s = (uint16_t)below(STATIONS + 1);
  int32_t wanted = address[0] % 2 ? WF_BAD_ADDRESS : WF_OK;
  if (below(4) == 0) {
    if (wf_path_set_base(&path, address) != wanted) fail("another code of an address");
    if (wanted == WF_OK) memcpy(base, address, 6);
  } else if (s == STATIONS) {
    if (wf_path_set_address(&path, s, address) != WF_BAD_STATION) fail("an address of no station");
    if (wf_path_address(&path, s, told) != WF_BAD_STATION) fail("an address of no station is told");
  } else {
    if (wf_path_set_address(&path, s, address) != wanted) fail("another code of an address");
    if (wanted == WF_OK) memcpy(addresses[s], address, 6);
    if (wf_path_address(&path, s, told) || memcmp(told, addresses[s], 6)) fail("another address is told");
  }
  wf_path_base(&path, told);
  if (memcmp(told, base, 6)) fail("another address of the access point");
}

/* Returns the access point's address in a BSS. */
static const uint8_t *address_of(uint8_t bss) {
  return has_address[bss] ? bsses[bss] : base;
}

/* Returns a BSS, sometimes one that does not exist. */
static uint8_t some_bss(void) {
  return (uint8_t)below(below(50) ? BSSES : BSSES + 1);
}

/* Sets the access point's address in a BSS; sometimes a group address, or one for a BSS that does not exist. The trace
 * does not have it. */
static void call_bss_address(void) {
  uint8_t address[6] = {(uint8_t)(below(8) ? 6 : 7), 0, 0x5e, 0, 0x53, (uint8_t)below(3)}, bss = some_bss();
  int32_t wanted = bss == BSSES ? WF_BAD_BSS : address[0] % 2 ? WF_BAD_ADDRESS : WF_OK;
  if (wf_path_set_bss(&path, bss, address) != wanted) fail("another code of the address of a BSS");
  if (wanted) return;
  memcpy(bsses[bss], address, 6);
  has_address[bss] = 1;
}

static void call_bss(uint16_t s) {
  uint8_t bss = some_bss();
  int32_t code = wf_path_set_station_bss(&path, s, bss, &reply);
  fprintf(trace, "bss %u %u\n", (unsigned)s, (unsigned)bss);
  if (code == WF_OK) station_bss[s] = bss;
  write_answer(code, NULL);
}

/* Sets the association identifier of a station; sometimes one that is out of its range, or one for a station number
 * that does not exist. Two stations may have the same. The trace does not have it. */
static void call_aid(void) {
  uint16_t s = (uint16_t)below(STATIONS + 1), aid = (uint16_t)(below(8) ? 1 + below(AIDS - 1) : AIDS * below(2));
  int32_t wanted = s == STATIONS ? WF_BAD_STATION : aid == 0 || aid == AIDS ? WF_BAD_AID : WF_OK;
  if (wf_path_set_aid(&path, s, aid) != wanted) fail("another code of an association identifier");
  if (wanted == WF_OK) aids[s] = aid;
}

/* Notes the association identifiers that a TIM element shows. */
static void note_tim(const uint8_t tim[256], size_t size, uint8_t shown[AIDS]) {
  size_t first = 8u * (tim[4] & 0xfeu), i;
  if (size < 6 || tim[0] != 5 || tim[1] + 2u != size) fail("no TIM element");
  for (i = 0; i < 8 * (size - 5); i++) {
    if (tim[5 + i / 8] >> i % 8 & 1) shown[first + i] = 1;
  }
}

/* Checks that the TIM element of each BSS shows stations of this BSS alone. One that does not exist has none. */
static void look_at_tims(void) {
  uint8_t tim[256] = {0}, bss;
  for (bss = 0; bss <= BSSES; bss++) {
    uint8_t shown[AIDS] = {0}, group = bss % 2 ? 2 : 0;
    uint16_t s;
    note_tim(tim, wf_path_tim(&path, bss, bss, 255, group, tim), shown);
    if (tim[2] != bss || tim[3] != 255 || tim[4] % 2 != bss % 2) fail("another count, period or bit in the TIM");
    for (s = 0; s < STATIONS; s++) {
      if (wf_path_live(&path, s) && station_bss[s] == bss) shown[aids[s]] = 0;
    }
    if (memcmp(shown, (uint8_t[AIDS]){0}, AIDS)) fail("a station in the TIM of another BSS");
  }
}

/* Compares the header and the tag of a transmission with its octets. Both have the station's number. */
static void look_at_parts(const struct exchange *x, uint16_t index) {
  uint8_t whole[WF_GREATEST_MPDU] = {0}, header[WF_HEADER] = {0};
  int is_end = x->eosp && index + 1 == x->frames.count;
  size_t size = 0;
  uint64_t tag = 0;
  if (wf_path_mpdu(&path, x->number, index, whole, sizeof whole, &size)) fail("no octets");
  if (memcmp(whole + 4, addresses[x->station], 6)) fail("another address on the air");
  if (memcmp(whole + 10, address_of(station_bss[x->station]), 6)) fail("another access point on the air");
  if (whole[24] != (is_end ? x->tid + 16 : x->tid)) fail("another TID or EOSP bit on the air");
  if ((whole[1] & 0x20) != (x->more || (x->eosp && !is_end) ? 0x20 : 0)) fail("another More Data bit on the air");
  if (wf_path_header(&path, x->number, index, header) || memcmp(header, whole, WF_HEADER)) fail("another header");
  if (wf_path_frame_tag(&path, x->number, index, &tag) || (tag & 0xffff) != (size - WF_HEADER)) fail("another tag on the air");
}

/* Checks that all readers agree about a new exchange. */
static void look_at(const struct exchange *x) {
  struct wf_sent sent = {0};
  uint64_t id = 0;
  uint16_t i;
  if (wf_path_sent(&path, x->number, &sent)) fail("an exchange that is not open");
  if (sent.station != x->station || sent.tid != x->tid || sent.request != x->request) fail("another exchange");
  if (sent.count != (x->request ? 1 : x->frames.count)) fail("another count");
  for (i = 0; i < x->frames.count; i++) {
    if (wf_path_frame_id(&path, x->number, i, &id) || id != x->frames.ids[i]) fail("another frame");
  }
  if (wf_path_frame_id(&path, x->number, x->frames.count, &id) != WF_BAD_INDEX) fail("a frame too many");
  for (i = 0; i < x->frames.count; i++) look_at_parts(x, i);
  if (wf_path_frame_tag(&path, x->number, x->frames.count, &id) != WF_BAD_INDEX) fail("a tag too many");
  if (wf_path_header(&path, x->number, x->frames.count, (uint8_t[WF_HEADER]){0}) != WF_BAD_INDEX) fail("a header too many");
}

/* Notes the frames of an aggregate in the session of its TID, each as one that has not arrived. */
static void note_frames(const struct exchange *x) {
  struct session *session = &sessions[x->station][x->tid];
  uint16_t i;
  for (i = 0; i < x->frames.count; i++) {
    uint16_t n = x->frames.numbers[i];
    if (session->ids[n] == x->frames.ids[i] + 1) continue;
    session->ids[n] = x->frames.ids[i] + 1;
    session->arrived[n] = 0;
  }
}

/* Writes the line of a pull with limits; 0 limits nothing. */
static void write_pull(uint8_t class_, uint32_t most, uint32_t air) {
  fprintf(trace, "pull %s", CLASSES[class_]);
  if (most) fprintf(trace, " frames %lu", (unsigned long)most);
  if (air) fprintf(trace, " air %lu", (unsigned long)air);
  fprintf(trace, "\n");
}

static void call_pull(void) {
  struct exchange *x = &exchanges[open_count];
  uint8_t class_ = (uint8_t)below(4);
  int32_t code;
  int can;
  if (open_count == OPEN) return;
  memset(x, 0, sizeof *x);
  can = wf_path_can_pull(&path, class_);
  if (below(2)) {
    code = wf_path_pull(&path, class_, &reply, &x->frames);
    fprintf(trace, "pull %s\n", CLASSES[class_]);
  } else {
    uint32_t most = below(9), air = below(3000);
    code = wf_path_pull_limited(&path, class_, most, air, &reply, &x->frames);
    write_pull(class_, most, air);
  }
  if (can != (code == WF_OK)) fail("another pull than was told");
  write_answer(code, &x->frames);
  if (code) return;
  x->number = reply.exchange;
  x->station = reply.station;
  x->tid = reply.tid;
  x->request = reply.request;
  x->batch = reply.batch;
  x->plain = reply.plain;
  x->eosp = reply.eosp;
  x->more = reply.more;
  x->air = reply.air;
  x->start = reply.start;
  if (x->batch && x->request) fail("a batch that is a request");
  if (x->plain && (x->batch || x->request || x->frames.count != 1)) fail("a plain exchange of other than one frame");
  if (x->eosp && (x->request || wf_path_in_service(&path, x->station))) fail("an exchange that ends no service period");
  if (!x->batch) note_frames(x);
  open_count++;
  look_at(x);
}

/* The number of transmissions of an exchange. */
static uint16_t transmissions(const struct exchange *x) {
  return x->request ? 1 : x->frames.count;
}

/* Writes the line of a mark. */
static void write_mark(const struct exchange *x, uint16_t index, int is_unsent) {
  fprintf(trace, "%s %llu %u\n", is_unsent ? "unsent" : "giveup", (unsigned long long)x->number, (unsigned)index);
}

static void note_mark(struct exchange *x, uint16_t index, int is_unsent) {
  if (is_unsent) x->unsent[index] = 1;
  else if (!x->request) given_up[x->frames.ids[index]] = 1;
  x->marks++;
}

/* Marks a transmission of an open exchange, or sometimes one that is marked or does not exist. */
static void call_mark(void) {
  struct exchange *x;
  uint16_t index;
  int32_t code;
  int is_unsent = below(3) != 0;
  if (open_count == 0) return;
  x = &exchanges[below((uint32_t)open_count)];
  index = (uint16_t)below((uint32_t)transmissions(x) + (below(10) == 0));
  code = is_unsent ? wf_path_unsent(&path, x->number, index, &reply) : wf_path_give_up(&path, x->number, index, &reply);
  if (code == WF_OK) note_mark(x, index, is_unsent);
  write_mark(x, index, is_unsent);
  write_answer(code, NULL);
}

/* Lets some transmissions of an exchange arrive, and may let its station answer. Returns whether it answered.
 * */
static int arrive(const struct exchange *x) {
  struct session *session = &sessions[x->station][x->tid];
  int i, count = transmissions(x), any = 0;
  for (i = 0; i < count; i++) {
    if (x->unsent[i] || below(4) == 0) continue;
    receivers_line("arrive", x->number, i);
    if (!x->request) session->arrived[x->frames.numbers[i]] = 1;
    any = 1;
  }
  if (!any) return 0;
  receivers_line("answer", x->number, -1);
  return 1;
}

/* The bitmap of what a station has received, and returns its start: the first number of the exchange. */
static uint16_t shown(const struct exchange *x, uint8_t bits[32]) {
  struct session *session = &sessions[x->station][x->tid];
  uint16_t i, start = x->request ? x->start : x->frames.numbers[0];
  memset(bits, 0, 32);
  for (i = 0; i < x->frames.count; i++) {
    unsigned offset = (unsigned)(x->frames.numbers[i] - start) & 4095;
    if (session->arrived[x->frames.numbers[i]]) bits[offset / 8] |= (uint8_t)(1 << offset % 8);
  }
  return start;
}

/* Ends an exchange by the octets of a BlockAck. */
static int32_t done_octets(const struct exchange *x, uint16_t start, const uint8_t bits[32], uint32_t air) {
  uint8_t frame[WF_GREATEST_MPDU] = {0}, ack[52] = {0};
  size_t size = 0, need = 0, length = windows[x->station][x->tid] > 64 ? 52 : 28;
  if (wf_path_mpdu(&path, x->number, 0, frame, 15, &need) != WF_SMALL_BUFFER) fail("room for a frame in 15 octets");
  if (wf_path_mpdu(&path, x->number, 0, frame, sizeof frame, &size) || size != need) fail("a frame of another size");
  ack[0] = 0x94;
  memcpy(ack + 4, frame + 10, 6);
  memcpy(ack + 10, frame + 4, 6);
  ack[16] = 0x04;
  ack[17] = (uint8_t)((x->tid + 1) % 8 << 4);
  ack[18] = (uint8_t)(start << 4 | (length == 52 ? 4 : 0));
  ack[19] = (uint8_t)(start >> 4);
  memcpy(ack + 20, bits, length - 20);
  if (wf_path_done_octets(&path, x->number, ack, length, air, &reply) != WF_WRONG_TID) fail("another TID is taken");
  if (wf_path_done_octets(&path, x->number, ack, length - 1, air, &reply) != WF_BLOCK_LENGTH) fail("a BlockAck cut short is taken");
  ack[17] = (uint8_t)(x->tid << 4);
  ack[15] ^= 1;
  if (wf_path_done_octets(&path, x->number, ack, length, air, &reply) != WF_NOT_MINE) fail("a BlockAck of another is taken");
  ack[15] ^= 1;
  return wf_path_done_octets(&path, x->number, ack, length, air, &reply);
}

/* Writes the line of the end of an exchange, and the answer to it. */
static void write_done(const struct exchange *x, int heard, uint32_t air, int32_t code) {
  fprintf(trace, "done %llu %s", (unsigned long long)x->number, heard ? "heard" : "lost");
  if (air) fprintf(trace, " air %lu", (unsigned long)air);
  fprintf(trace, "\n");
  write_answer(code, NULL);
}

/* Ends an exchange, with an airtime or without one. After a refusal the function for octets leaves `reply`
 * unchanged, so the function for bits is then called too, for its answer. */
static int32_t end_exchange(const struct exchange *x, int heard, uint32_t air) {
  uint8_t bits[32];
  uint16_t start;
  int32_t code = WF_BAD_AIR;
  if (x->plain && x->marks == 0 && below(2)) {
    code = wf_path_done_ack(&path, x->number, (uint8_t)heard, air, &reply);
  } else if (heard) {
    start = shown(x, bits);
    if (below(2)) code = done_octets(x, start, bits, air);
    if (code) code = wf_path_done_bits(&path, x->number, start, bits, air, &reply);
  } else {
    code = wf_path_done_lost(&path, x->number, air, &reply);
  }
  write_done(x, heard, air, code);
  return code;
}

/* Draws marks for the transmissions of an exchange, which has none, and writes their lines and answers. Writes
 * the outcome of each transmission if none is acknowledged. */
static void draw_marks(struct exchange *x, uint8_t outcomes[256], int none_is_sent) {
  uint16_t i;
  for (i = 0; i < transmissions(x); i++) {
    uint32_t drawn = none_is_sent ? 0 : below(6);
    outcomes[i] = drawn == 0 ? WF_OUTCOME_UNSENT : drawn == 1 ? WF_OUTCOME_GAVE_UP : WF_OUTCOME_RETRY;
    if (outcomes[i] == WF_OUTCOME_RETRY) continue;
    note_mark(x, i, outcomes[i] == WF_OUTCOME_UNSENT);
    write_mark(x, i, outcomes[i] == WF_OUTCOME_UNSENT);
    fprintf(answers, "marked\n");
    lines++;
  }
}

/* Ends an exchange without marks by an outcome of each transmission. If the answer was heard, everything that
 * the station has received, now or before, is acknowledged, unless it never went on the air this time. The
 * trace has a mark also for an acknowledged frame that would be given up otherwise: this mark has no effect. */
static void end_by_outcomes(struct exchange *x) {
  const struct session *session = &sessions[x->station][x->tid];
  uint8_t outcomes[257] = {0};
  uint32_t air = below(2) ? 1 + below(CHARGE) : 0;
  uint16_t i, count = transmissions(x);
  int heard;
  draw_marks(x, outcomes, 0);
  heard = arrive(x) && below(4);
  for (i = 0; heard && i < count; i++) {
    if (x->unsent[i]) continue;
    if (x->request || session->arrived[x->frames.numbers[i]]) outcomes[i] = WF_OUTCOME_ACKED;
  }
  if (wf_path_done_each(&path, x->number, outcomes, count + 1u, air, &reply) != WF_BAD_INDEX) fail("one outcome too many");
  write_done(x, heard, air, wf_path_done_each(&path, x->number, outcomes, count, air, &reply));
  if (reply.kind != WF_KIND_DONE) fail("outcomes that end no exchange");
}

/* Ends a batch without marks by an outcome of each frame. The trace says of each acknowledged frame that it
 * arrived. */
static void end_batch(struct exchange *x) {
  uint8_t outcomes[256] = {0};
  uint32_t air = below(2) ? 1 + below(CHARGE) : 0;
  uint16_t i, count = transmissions(x);
  int heard = 0;
  draw_marks(x, outcomes, 0);
  for (i = 0; i < count; i++) {
    if (outcomes[i] != WF_OUTCOME_RETRY) continue;
    if (below(4) == 0) {
      given_up[x->frames.ids[i]] = 1;
      continue;
    }
    outcomes[i] = WF_OUTCOME_ACKED;
    receivers_line("arrive", x->number, i);
    heard = 1;
  }
  write_done(x, heard, air, wf_path_done_each(&path, x->number, outcomes, count, air, &reply));
  if (reply.kind != WF_KIND_DONE) fail("outcomes that end no batch");
}

/* Ends a batch as lost, with marks or without them: each frame that may have gone on the air fails. */
static void lose_batch(struct exchange *x) {
  uint16_t i;
  for (i = 0; i < transmissions(x); i++) {
    if (!x->unsent[i]) given_up[x->frames.ids[i]] = 1;
  }
  if (end_exchange(x, 0, below(2) ? 1 + below(CHARGE) : 0)) fail("a batch that does not end");
}

/* Cancels an exchange without marks. */
static void cancel(struct exchange *x) {
  uint8_t outcomes[256];
  int32_t code;
  draw_marks(x, outcomes, 1);
  code = wf_path_cancel(&path, x->number, &reply);
  write_done(x, 0, 1, code);
  if (reply.acked || reply.failed || reply.waiting != x->frames.count) fail("a cancelled exchange whose frames do not wait");
}

/* Ends an exchange by bits, by octets or as lost. If an exchange has a mark, it does not end by outcomes. */
static void end_by_answer(const struct exchange *x) {
  static const uint8_t outcomes[256];
  int heard = arrive(x) && below(4);
  if (x->marks && wf_path_done_each(&path, x->number, outcomes, transmissions(x), 0, &reply) != WF_MARKED) fail("outcomes after a mark");
  if (x->marks && wf_path_cancel(&path, x->number, &reply) != WF_MARKED) fail("a cancelled exchange with a mark");
  if (x->marks && x->plain && wf_path_done_ack(&path, x->number, 1, 0, &reply) != WF_MARKED) fail("an Ack after a mark");
  if (transmissions(x) > 1 && wf_path_done_ack(&path, x->number, 1, 0, &reply) != WF_BAD_INDEX) fail("an Ack of an aggregate");
  if (below(8) == 0 && end_exchange(x, heard, CHARGE + 1 + below(3)) != WF_BAD_AIR) fail("too great an airtime is taken");
  if (end_exchange(x, heard, below(2) ? 1 + below(CHARGE) : 0)) fail("an exchange that does not end");
}

/* Says that a BlockAck to an exchange was heard if nothing of it went on the air, which is refused. */
static void hear_nothing(const struct exchange *x) {
  uint16_t i;
  for (i = 0; i < transmissions(x); i++) {
    if (!x->unsent[i]) return;
  }
  if (end_exchange(x, 1, below(2) ? CHARGE + 1 : 0) != WF_NO_ANSWER) fail("an answer to what was not sent is taken");
}

static void call_done(void) {
  struct exchange x;
  int which;
  if (open_count == 0) return;
  which = (int)below((uint32_t)open_count);
  x = exchanges[which];
  exchanges[which] = exchanges[--open_count];
  if (!x.batch) hear_nothing(&x);
  if (x.batch && (x.marks || below(8) == 0)) lose_batch(&x);
  else if (x.batch && below(8)) end_batch(&x);
  else if (x.batch) cancel(&x);
  else if (x.marks || below(3)) end_by_answer(&x);
  else if (below(4)) end_by_outcomes(&x);
  else cancel(&x);
  if (wf_path_done_lost(&path, x.number, CHARGE + 1, &reply) != WF_NO_EXCHANGE) fail("an exchange that ends twice");
  if (wf_path_done_ack(&path, x.number, 1, CHARGE + 1, &reply) != WF_NO_EXCHANGE) fail("an exchange that an Ack ends twice");
}

/* Returns whether a reaped frame was sent as often as its fate says: never if a queue dropped it, and
 * `attempts` times if it was dropped after its last transmission, unless that was given up. */
static int tries_fit(const struct wf_taken *taken) {
  switch (taken->fate) {
  case WF_OVERLIMIT:
  case WF_CODEL: return taken->attempts == 0;
  case WF_RETRIES: return taken->attempts == ATTEMPTS || (given_up[taken->id] && 0 < taken->attempts && taken->attempts < ATTEMPTS);
  case WF_ACKED: return 0 < taken->attempts && taken->attempts <= ATTEMPTS;
  default: return taken->attempts < ATTEMPTS;
  }
}

static void call_reap(void) {
  static uint8_t body[WF_GREATEST_BODY];
  struct wf_taken taken = {0};
  int32_t code = wf_path_reap(&path, &reply, &taken, body, below(2) ? 1 : sizeof body - 1);
  int wanted = below(2) == 0;
  uint16_t j;
  if (code != WF_SMALL_BUFFER) fail("room for a body in 2303 octets");
  if (wanted) code = wf_path_reap(&path, &reply, &taken, body, sizeof body);
  else code = wf_path_reap(&path, &reply, &taken, NULL, 0);
  fprintf(trace, "reap\n");
  write_answer(code, NULL);
  if (code) return;
  if (taken.id != reply.id || taken.fate != reply.fate || taken.stamp > wf_path_now(&path)) fail("another frame");
  if (taken.station >= STATIONS || taken.tid > 7 || taken.flow >= 20 || taken.length == 0) fail("a frame that never came");
  if (taken.tag != tag_of(taken.station, taken.tid, taken.flow, taken.length)) fail("another tag");
  if (!has_source(taken.flow, taken.source)) fail("another source");
  if (!tries_fit(&taken)) fail("a frame that was sent more or less often");
  for (j = 0; wanted && j < taken.length; j++) {
    if (body[j] != (uint8_t)(taken.flow + j)) fail("another body");
  }
}

/* Moves the clock to a time, sometimes to one that is too early. The trace has the ticks that this takes. */
static void call_advance(void) {
  uint64_t now = wf_path_now(&path), to = now + below(25) * below(1000000);
  int32_t code;
  if (now && below(8) == 0) to = now - 1;
  code = wf_path_advance(&path, to, &reply);
  if (to < now) {
    fprintf(trace, "tick %d\n", TICK + 1);
    if (wf_path_now(&path) != now) fail("the clock was moved back");
  }
  for (; to > now + TICK; now += TICK) {
    fprintf(trace, "tick %d\n", TICK);
    fprintf(answers, "now %llu\n", (unsigned long long)(now + TICK));
    lines++;
  }
  if (to >= now) fprintf(trace, "tick %llu\n", (unsigned long long)(to - now));
  write_answer(code, NULL);
}

static void call_other(uint16_t s) {
  uint8_t class_ = (uint8_t)below(4), tid, weight;
  uint32_t number = below(50) ? below(2000) : 10000000 + below(2);
  int32_t code;
  switch (below(12)) {
    case 0: code = wf_path_leave(&path, s, &reply), fprintf(trace, "leave %u\n", (unsigned)s); break;
    case 1: code = wf_path_sleep(&path, s, &reply), fprintf(trace, "sleep %u\n", (unsigned)s); break;
    case 2: code = wf_path_wake(&path, s, &reply), fprintf(trace, "wake %u\n", (unsigned)s); break;
    case 3: code = wf_path_poll(&path, s, &reply), fprintf(trace, "poll %u\n", (unsigned)s); break;
    case 4:
      code = wf_path_rx(&path, s, class_, number, &reply);
      fprintf(trace, "rx %u %s %lu\n", (unsigned)s, CLASSES[class_], (unsigned long)number);
      break;
    case 5: code = wf_path_stop(&path, s, &reply), fprintf(trace, "stop %u\n", (unsigned)s); break;
    case 6:
    case 7: code = wf_path_start(&path, s, &reply), fprintf(trace, "start %u\n", (unsigned)s); break;
    case 8:
      number = 4095 + 100 * number;
      code = wf_path_ampdu(&path, s, number, &reply);
      fprintf(trace, "ampdu %u %lu\n", (unsigned)s, (unsigned long)number);
      break;
    case 9:
      tid = (uint8_t)below(below(50) ? 8 : 10);
      code = wf_path_flush(&path, s, tid, &reply);
      fprintf(trace, "flush %u %u\n", (unsigned)s, (unsigned)tid);
      break;
    case 10:
      weight = (uint8_t)below(18);
      code = wf_path_weight(&path, s, weight, &reply);
      fprintf(trace, "weight %u %u\n", (unsigned)s, (unsigned)weight);
      break;
    default:
      number *= 10;
      code = wf_path_tick(&path, number, &reply);
      fprintf(trace, "tick %lu\n", (unsigned long)number);
      break;
  }
  write_answer(code, NULL);
}

/* Ends the line of a call about the group frames of a BSS. */
static void end_line(uint8_t bss) {
  if (bss) fprintf(trace, " %u", (unsigned)bss);
  fprintf(trace, "\n");
}

/* Accepts a group frame for one of two addresses. Its tag has its length. */
static void call_group(uint8_t bss) {
  uint8_t to[6] = {0x01, 0, 0x5e, 0, 0, (uint8_t)below(2)};
  uint16_t length = (uint16_t)(1 + below(WF_GREATEST_BODY));
  int32_t code = wf_path_group(&path, bss, to, length, (uint64_t)length << 8 | to[5], &reply);
  fprintf(trace, "group %u", (unsigned)length);
  end_line(bss);
  write_answer(code, NULL);
}

/* Checks the header of the group frame of a BSS on the air by the answer to its pull. */
static void look_at_the_group_header(uint8_t bss) {
  static const uint8_t SOURCE[6] = {0x02, 0, 0, 9, 9, 9};
  uint8_t header[WF_GROUP_HEADER] = {0};
  if (wf_path_group_header(&path, bss, SOURCE, header)) fail("no header of a group frame");
  if (header[0] != 8 || header[1] != (reply.more ? 0x22 : 2) || header[2] || header[3]) fail("another frame control of a group frame");
  if (memcmp(header + 4, group_frames[bss].to, 6) || memcmp(header + 16, SOURCE, 6)) fail("another address of a group frame");
  if (memcmp(header + 10, address_of(bss), 6)) fail("the address of another BSS in a group frame");
  if (header[22] != (uint8_t)(reply.start << 4) || header[23] != reply.start >> 4) fail("another number of a group frame");
}

static void call_group_pull(uint8_t bss) {
  struct wf_group frame = {0};
  int32_t code = wf_path_group_pull(&path, bss, &frame, &reply);
  fprintf(trace, "gpull");
  end_line(bss);
  write_answer(code, NULL);
  if (code) return;
  if (frame.id != reply.id || frame.tag != ((uint64_t)frame.length << 8 | frame.to[5])) fail("another group frame");
  group_frames[bss] = frame;
  look_at_the_group_header(bss);
}

static void call_group_done(uint8_t bss) {
  struct wf_group frame = {0};
  const struct wf_group *flying = &group_frames[bss % BSSES];
  int32_t code = wf_path_group_done(&path, bss, &frame, &reply);
  fprintf(trace, "gdone");
  end_line(bss);
  write_answer(code, NULL);
  if (code == WF_OK && (frame.id != reply.id || frame.tag != flying->tag || memcmp(frame.to, flying->to, 6))) fail("the end of another group frame");
}

static void call_beacon(uint8_t bss) {
  int32_t code = wf_path_beacon(&path, bss, &reply);
  fprintf(trace, "beacon");
  end_line(bss);
  write_answer(code, NULL);
  if (code) return;
  dtim_counts[bss] = (uint8_t)reply.count;
  announced[bss] = reply.more;
}

/* Makes a call about the group frames of a BSS, and checks that these add up. */
static void call_about_groups(void) {
  struct wf_group_counts counts = {0};
  uint32_t which = below(6);
  uint8_t bss = some_bss();
  if (which < 2) call_group(bss);
  else if (which < 4) call_group_pull(bss);
  else if (which < 5) call_group_done(bss);
  else call_beacon(bss);
  if (wf_path_group_counts(&path, bss, &counts) != (bss == BSSES ? WF_BAD_BSS : WF_OK)) fail("another code of the counts of group frames");
  if (counts.accepted != counts.sent + counts.queued + counts.flying || counts.queued > BUFFERED) fail("group frames that do not add up");
}

/* Makes a call about the service periods of a station, and checks whether one is open. */
static void call_about_services(uint16_t s) {
  uint8_t classes = (uint8_t)below(below(50) ? 16 : 17), most = (uint8_t)below(6);
  uint32_t which = below(4);
  int was_open = wf_path_in_service(&path, s);
  int32_t code;
  if (which < 1) {
    code = wf_path_apsd(&path, s, classes, most, &reply);
    fprintf(trace, "apsd %u %u %u\n", (unsigned)s, (unsigned)classes, (unsigned)most);
  } else if (which < 3) {
    code = wf_path_trigger(&path, s, &reply);
    fprintf(trace, "trigger %u\n", (unsigned)s);
  } else {
    code = wf_path_end_service(&path, s, &reply);
    fprintf(trace, "eosp %u\n", (unsigned)s);
  }
  write_answer(code, NULL);
  if (code == WF_OK && which > 0) was_open = which < 3;
  if (wf_path_in_service(&path, s) != was_open) fail("a service period that is open, or is not");
}

static void call(void) {
  uint16_t s = (uint16_t)below(below(100) ? STATIONS : STATIONS + 1);
  uint32_t which = below(100);
  if (below(50) == 0) call_address();
  if (below(50) == 0) call_bss_address(), call_aid(), look_at_tims();
  if (below(25) == 0) call_mark();
  if (below(10) == 0) call_about_groups();
  if (below(10) == 0) call_about_services(s);
  if (below(25) == 0) call_bss(s);
  if (which < 39) call_enqueue(s);
  else if (which < 57) call_pull();
  else if (which < 75) call_done();
  else if (which < 88) call_reap();
  else if (which < 90) call_mode(s);
  else if (which < 91) call_join(s);
  else if (which < 92) call_plain(s);
  else if (which < 93) call_join_offload(s);
  else if (which < 94) below(3) ? call_rate(s) : call_rate_legacy(s);
  else if (which < 95) call_rate_vht(s);
  else if (which < 96) call_rate_he(s);
  else if (which < 97) call_advance();
  else call_other(s);
}

/* Returns how many frames are inside. */
static uint64_t held_of(const struct wf_tally *t) {
  return t->accepted - t->acked - t->overlimit - t->codel - t->retries - t->left - t->flushed - t->ended;
}

/* Writes the lines of the summary about a BSS. A trace has the placeholder association identifiers. */
static void bss_lines(uint8_t bss) {
  struct wf_group_counts groups = {0};
  uint8_t tim[256] = {0};
  size_t i, size;
  if (wf_path_group_counts(&path, bss, &groups)) fail("no counts of group frames");
  fprintf(answers, "group %llu sent %llu held %lu air %llu bss %u\n", (unsigned long long)groups.accepted, (unsigned long long)groups.sent,
          (unsigned long)(groups.queued + groups.flying), (unsigned long long)groups.air, (unsigned)bss);
  size = wf_path_tim(&path, bss, dtim_counts[bss], DTIM, announced[bss], tim);
  fprintf(answers, "tim ");
  for (i = 0; i < size; i++) fprintf(answers, "%02x", tim[i]);
  fprintf(answers, " bss %u\n", (unsigned)bss);
}

/* Writes the summary of docs/TRACE.md. */
static void summary(void) {
  struct wf_tally t = {0};
  struct wf_share share = {0};
  uint16_t s;
  uint8_t c, bss;
  wf_path_tally(&path, &t);
  fprintf(answers, "calls %ld\nnow %llu\n", lines, (unsigned long long)wf_path_now(&path));
  fprintf(answers, "frames %llu acked %llu overlimit %llu codel %llu retries %llu left %llu held %llu", (unsigned long long)t.accepted,
          (unsigned long long)t.acked, (unsigned long long)t.overlimit, (unsigned long long)t.codel, (unsigned long long)t.retries,
          (unsigned long long)t.left, (unsigned long long)held_of(&t));
  if (t.flushed) fprintf(answers, " flushed %llu", (unsigned long long)t.flushed);
  if (t.ended) fprintf(answers, " ended %llu", (unsigned long long)t.ended);
  fprintf(answers, "\n");
  fprintf(answers, "exchanges %llu open %lu\n", (unsigned long long)wf_path_exchanges(&path), (unsigned long)wf_path_open_count(&path));
  for (s = 0; s < STATIONS; s++) {
    for (c = 0; c < 4; c++) {
      if ((wf_path_share(&path, s, c, &share) == WF_OK) != (wf_path_live(&path, s) == 1)) fail("live, and not live");
      if (!wf_path_live(&path, s) || (share.charged == 0 && share.rx == 0)) continue;
      fprintf(answers, "sta %u %s charged %llu rx %llu deficit %lld\n", (unsigned)s, CLASSES[c], (unsigned long long)share.charged,
              (unsigned long long)share.rx, (long long)share.deficit);
    }
  }
  for (s = 0; s < STATIONS; s++) {
    if (wf_path_set_aid(&path, s, (uint16_t)(s + 1))) fail("no placeholder for an association identifier");
  }
  for (bss = 0; bss < BSSES; bss++) bss_lines(bss);
}

/*
 * Writes the line of a trace with the settings that are not standard, in the order of the struct. A line with
 * all settings could be longer than a trace allows.
 */
static void write_settings(const struct wf_settings *settings) {
  struct wf_settings standard = {0};
  uint32_t values[SETTINGS], usual[SETTINGS];
  int place;
  wf_settings_standard(&standard);
  memcpy(values, settings, sizeof values);
  memcpy(usual, &standard, sizeof usual);
  fprintf(trace, "cell");
  for (place = 1; place <= SETTINGS; place++) {
    char name[WF_NAME] = {0};
    if (values[place - 1] == usual[place - 1]) continue;
    wf_setting_name(place, name);
    fprintf(trace, " %s=%lu", name, (unsigned long)values[place - 1]);
  }
  fprintf(trace, "\n");
}

static void open_path(void) {
  struct wf_settings settings = {0};
  uint16_t s;
  wf_settings_standard(&settings);
  settings.stations = STATIONS;
  settings.flows = 5000;
  if (wf_path_make(&path, &settings) != WF_BAD_SETTING + 2) fail("5000 flows are taken");
  settings.flows = FLOWS;
  settings.reserved[1] = 1;
  if (wf_path_make(&path, &settings) != WF_BAD_SETTING + SETTINGS + 2) fail("a setting that is none is taken");
  settings.reserved[1] = 0;
  settings.limit = 40;
  settings.room = 400;
  settings.attempts = ATTEMPTS;
  settings.sleeping = 8;
  settings.calls = 4000000;
  settings.charge = 70000;
  if (wf_path_make(&path, &settings) != WF_BAD_SETTING + 13) fail("a charge of 70000 is taken");
  settings.charge = CHARGE;
  settings.debt = 1000001;
  if (wf_path_make(&path, &settings) != WF_BAD_SETTING + 14) fail("a debt of 1000001 is taken");
  settings.debt = DEBT;
  settings.legacy = 2;
  settings.period = DTIM;
  settings.buffered = BUFFERED;
  settings.bsses = BSSES;
  if (wf_path_make(&path, &settings)) fail("there is no path");
  write_settings(&settings);
  for (s = 0; s < STATIONS; s++) {
    if (wf_path_address(&path, s, addresses[s]) || addresses[s][3] != 1 || addresses[s][5] != s) fail("no made-up address");
    aids[s] = (uint16_t)(s + 1);
  }
}

/* Checks that the library has the version of the header. */
static void look_at_the_version(void) {
  struct wf_version_parts version = {0};
  wf_version(&version);
  if (version.major != WF_VERSION_MAJOR || version.minor != WF_VERSION_MINOR || version.patch != WF_VERSION_PATCH) fail("another version");
}

int main(int count, char **words) {
  long calls;
  if (count != 5) fail("same CALLS SEED TRACE ANSWERS");
  calls = atol(words[1]);
  seed = (uint32_t)atol(words[2]);
  trace = fopen(words[3], "w");
  answers = fopen(words[4], "w");
  if (!trace || !answers) fail("no file");
  look_at_the_version();
  open_path();
  while (calls-- > 0) call();
  fprintf(trace, "end\n");
  summary();
  wf_path_free(&path);
  if (fclose(trace) || fclose(answers)) fail("a file that cannot be written");
  return 0;
}
