/*
 * Makes random calls of a cell through libwf and writes the answers. Then it writes the trace, entry by
 * entry, from the cell's history. Both are in the words of docs/TRACE.md. The output of `wf replay` for the
 * trace has to begin with these answers; checks/c-library compares them.
 *
 *   both CALLS SEED TRACE ANSWERS
 */
#include <stdint.h>
#include <stdio.h>
#include <stdlib.h>
#include <string.h>

#include "words.h"
#include "wf.h"

enum { STATIONS = 6, OPEN = 32, CHARGE = 5000, BSSES = 2 };

static struct wf_cell cell;
static struct wf_reply reply;
static uint64_t exchanges[OPEN]; /* the open ones */
static uint32_t open_count;
static uint64_t opened;
static uint32_t seed;
static FILE *trace, *answers;

static uint32_t below(uint32_t n) {
  seed = seed * 1664525u + 1013904223u;
  return (seed >> 8) % n;
}

static void fail(const char *what) {
  fprintf(stderr, "both: %s\n", what);
  exit(1);
}

static void write_kind(void) {
  char kind[WF_NAME] = {0};
  wf_kind_name(reply.kind, kind);
  fprintf(answers, "%s", kind);
}

/* Writes how many frames the end of an agreement dropped, and the frames that the station passed up. */
static void write_released(const struct wf_passed_up *up) {
  uint16_t i;
  write_kind();
  if (reply.kind == WF_KIND_CEASED) fprintf(answers, " %lu", (unsigned long)reply.count);
  for (i = 0; i < up->count; i++) fprintf(answers, " %llu", (unsigned long long)up->ids[i]);
  fprintf(answers, "\n");
}

static void write_block(void) {
  struct wf_block block = {0};
  int i;
  wf_cell_block(&cell, &block);
  write_kind();
  fprintf(answers, " %u ", (unsigned)block.start);
  for (i = block.wide ? 3 : 0; i >= 0; i--) fprintf(answers, "%016llx", (unsigned long long)block.bits[i]);
  fprintf(answers, "\n");
}

static void write_ack(void) {
  write_kind();
  fprintf(answers, "\n");
}

/* Writes the answer to the last call. */
static void write_answer(int32_t code) {
  struct wf_frames frames = {0};
  struct wf_passed_up up = {0};
  int has_up = reply.kind == WF_KIND_RELEASED || reply.kind == WF_KIND_CEASED;
  if (code != reply.refusal) fail("a code that is not the reply's");
  wf_cell_frames(&cell, &frames);
  wf_cell_released(&cell, &up);
  if (frames.count && (reply.kind != WF_KIND_SEND || reply.request)) fail("frames that nothing sends");
  if (up.count && !has_up) fail("frames that no station passes up");
  if (has_up) write_released(&up);
  else if (reply.kind == WF_KIND_BA) write_block();
  else if (reply.kind == WF_KIND_ACK) write_ack();
  else if (!write_words(answers, &reply, &frames)) fail("an answer of no cell");
}

/* Updates the list of open exchanges by the last answer. */
static void follow(uint64_t exchange) {
  uint32_t i;
  if (reply.kind == WF_KIND_SEND) {
    exchanges[open_count++] = reply.exchange;
    opened++;
  }
  if (reply.kind != WF_KIND_DONE) return;
  for (i = 0; i < open_count && exchanges[i] != exchange; i++) continue;
  if (i == open_count) fail("an exchange that ends, and was not open");
  exchanges[i] = exchanges[--open_count];
}

/* Returns an open exchange, or sometimes any other number. */
static uint64_t some_exchange(void) {
  if (open_count == 0 || below(50) == 0) return below((uint32_t)opened + 2);
  return exchanges[below(open_count)];
}

/* Returns a kind of call that has no frame, common ones more often. */
static uint8_t some_kind(void) {
  static const uint8_t KINDS[] = {WF_CALL_PULL, WF_CALL_PULL, WF_CALL_PULL, WF_CALL_ARRIVE, WF_CALL_ARRIVE, WF_CALL_ARRIVE, WF_CALL_ARRIVE,
                                  WF_CALL_ARRIVE, WF_CALL_ARRIVE, WF_CALL_ANSWER, WF_CALL_ANSWER, WF_CALL_DONE, WF_CALL_DONE, WF_CALL_UNSENT, WF_CALL_GIVEUP};
  static const uint8_t MODES[] = {WF_CALL_HOLD, WF_CALL_BEGIN, WF_CALL_BEGIN, WF_CALL_FREE, WF_CALL_CEASE};
  static const uint8_t GROUPS[] = {WF_CALL_GROUP, WF_CALL_GROUP, WF_CALL_BEACON, WF_CALL_GPULL, WF_CALL_GDONE, WF_CALL_BSS};
  static const uint8_t SERVICES[] = {WF_CALL_APSD, WF_CALL_TRIGGER, WF_CALL_TRIGGER, WF_CALL_EOSP};
  uint8_t kind;
  if (below(8)) return KINDS[below(sizeof KINDS)];
  if (below(4) == 0) return MODES[below(sizeof MODES)];
  if (below(3) == 0) return GROUPS[below(sizeof GROUPS)];
  if (below(3) == 0) return SERVICES[below(sizeof SERVICES)];
  kind = (uint8_t)below(WF_CALL_CEASE);
  return (uint8_t)(kind < WF_CALL_REAP ? kind : kind + 1);
}

/* Returns a width in MHz, sometimes one that no format has. */
static uint8_t some_width(void) {
  static const uint8_t WIDTHS[] = {20, 40, 80, 160};
  return below(9) ? WIDTHS[below(4)] : 30;
}

/* Returns a speed of OFDM or DSSS, sometimes one that neither has. */
static uint8_t some_speed(uint8_t form) {
  static const uint8_t OFDM[] = {6, 9, 12, 18, 24, 36, 48, 54}, DSSS[] = {2, 4, 11, 22};
  if (below(9) == 0) return (uint8_t)below(256);
  return form == WF_FORM_OFDM ? OFDM[below(8)] : DSSS[below(4)];
}

/* Returns an airtime for the end of an exchange: none, one in range, or sometimes one that is too large. */
static uint32_t some_airtime(void) {
  if (below(2)) return 0;
  return below(8) ? 1 + below(CHARGE) : CHARGE + 1 + below(3);
}

static void call_ask(uint32_t caller, uint16_t station) {
  struct wf_call call = {0};
  int32_t code;
  call.kind = some_kind();
  if (call.kind == WF_CALL_ENQUEUE) call.kind = WF_CALL_JOIN;
  call.station = station;
  call.tid = (uint8_t)below(below(50) ? 8 : 10);
  call.class_ = (uint8_t)below(4);
  call.exchange = some_exchange();
  call.index = (uint16_t)below(below(4) ? 4 : 40);
  call.heard = (uint8_t)(below(4) != 0);
  call.by = below(50) ? below(20000) : 10000000 + below(2);
  call.air = below(50) ? below(2000) : 65535 + below(2);
  if (call.kind == WF_CALL_DONE) call.air = some_airtime();
  if (call.kind == WF_CALL_PULL && below(2)) call.air = 0;
  call.frames = below(2) ? below(9) : 0;
  call.octets = 4000 + below(100000);
  call.length = (uint16_t)(1 + below(WF_GREATEST_BODY));
  call.window = (uint16_t)(below(4) ? 1 + below(64) : 1 + below(257));
  call.start = (uint16_t)below(4100);
  call.exponent = (uint8_t)below(5);
  call.weight = (uint8_t)below(18);
  call.form = (uint8_t)below(5);
  call.mcs = (uint8_t)below(17);
  call.mhz = some_width();
  call.short_guard = (uint8_t)below(2);
  call.guard = (uint16_t)(below(9) ? 800 << below(3) : 400);
  call.streams = (uint8_t)below(10);
  call.speed = some_speed(call.form);
  call.classes = (uint8_t)below(below(50) ? 16 : 17);
  call.most = (uint8_t)below(6);
  call.bss = (uint8_t)below(below(50) ? BSSES : BSSES + 1);
  code = wf_cell_ask(&cell, caller, &call, &reply);
  follow(call.exchange);
  write_answer(code);
}

static void call_enqueue(uint32_t caller, uint16_t station) {
  uint8_t body[WF_GREATEST_BODY];
  struct wf_packet packet = {0};
  size_t length = 1 + below(below(4) ? 200 : WF_GREATEST_BODY), j;
  int32_t code;
  packet.body = body;
  packet.tid = (uint8_t)below(below(50) ? 8 : 10);
  packet.flow = below(20);
  packet.tag = packet.flow << 16 | (uint32_t)length;
  packet.source[0] = 0x0a;
  packet.source[5] = (uint8_t)packet.flow;
  for (j = 0; j < length; j++) body[j] = (uint8_t)(packet.flow + j);
  if (wf_cell_enqueue(&cell, caller, station, &packet, &reply) != WF_BAD_LENGTH) fail("a body of no octet is taken");
  packet.length = length;
  code = wf_cell_enqueue(&cell, caller, station, &packet, &reply);
  if (code == WF_NO_MEMORY) fail("out of memory");
  write_answer(code);
}

static void call_reap(uint32_t caller) {
  static uint8_t body[WF_GREATEST_BODY];
  struct wf_taken taken = {0};
  int32_t code = wf_cell_reap(&cell, caller, &reply, &taken, body, sizeof body - 1);
  int wanted = below(2) == 0;
  uint16_t j;
  if (code != WF_SMALL_BUFFER) fail("room for a body in 2303 octets");
  if (wanted) code = wf_cell_reap(&cell, caller, &reply, &taken, body, sizeof body);
  else code = wf_cell_reap(&cell, caller, &reply, &taken, NULL, 0);
  write_answer(code);
  if (code) return;
  if (taken.id != reply.id || taken.fate != reply.fate) fail("another frame");
  if (taken.station >= STATIONS || taken.tid > 7 || taken.flow >= 20 || taken.length == 0) fail("a frame that never came");
  if (taken.tag != (taken.flow << 16 | taken.length)) fail("another tag");
  if (taken.source[0] != 0x0a || taken.source[5] != taken.flow) fail("another source");
  for (j = 0; wanted && j < taken.length; j++) {
    if (body[j] != (uint8_t)(taken.flow + j)) fail("another body");
  }
}

static void call(void) {
  uint32_t caller = below(3), which = below(100);
  uint16_t station = (uint16_t)below(below(100) ? STATIONS : STATIONS + 1);
  if (which < 30) call_enqueue(caller, station);
  else if (which < 42) call_reap(caller);
  else call_ask(caller, station);
}

/* Writes the rate of a call. */
static void write_rate(const struct wf_call *c) {
  unsigned s = c->station, mcs = c->mcs, mhz = c->mhz, streams = c->streams, speed = c->speed;
  switch (c->form) {
    case WF_FORM_HT: fprintf(trace, "rate %u %u %u %s\n", s, mcs, mhz, GUARDS[c->short_guard]); break;
    case WF_FORM_VHT: fprintf(trace, "rate %u vht %u %u %s %u\n", s, mcs, mhz, GUARDS[c->short_guard], streams); break;
    case WF_FORM_HE: fprintf(trace, "rate %u he %u %u %u %u\n", s, mcs, mhz, (unsigned)c->guard, streams); break;
    case WF_FORM_OFDM: fprintf(trace, "rate %u ofdm %u\n", s, speed); break;
    case WF_FORM_DSSS: fprintf(trace, "rate %u dsss %u\n", s, speed); break;
    default: fail("a rate of no format");
  }
}

/* Writes how an exchange ends, and the airtime, if one is given. */
static void write_done(const struct wf_call *c) {
  fprintf(trace, "done %llu %s", (unsigned long long)c->exchange, c->heard ? "heard" : "lost");
  if (c->air) fprintf(trace, " air %lu", (unsigned long)c->air);
  fprintf(trace, "\n");
}

/* Writes a pull and its limits, if it has any. */
static void write_pull(const struct wf_call *c) {
  fprintf(trace, "pull %s", CLASSES[c->class_]);
  if (c->frames) fprintf(trace, " frames %lu", (unsigned long)c->frames);
  if (c->air) fprintf(trace, " air %lu", (unsigned long)c->air);
  fprintf(trace, "\n");
}

/* Writes a call about the group frames of a BSS. */
static void write_group_call(const struct wf_call *c, const char *word) {
  fprintf(trace, "%s", word);
  if (c->kind == WF_CALL_GROUP) fprintf(trace, " %u", (unsigned)c->length);
  if (c->bss) fprintf(trace, " %u", (unsigned)c->bss);
  fprintf(trace, "\n");
}

/* Writes an entry of the history as a line of the trace. */
static void write_entry(uint64_t place) {
  struct wf_call c = {0};
  uint32_t caller = 0;
  unsigned s;
  if (wf_cell_entry(&cell, place, &caller, &c)) fail("an entry that is not there");
  s = c.station;
  fprintf(trace, "@%lu ", (unsigned long)caller);
  switch (c.kind) {
    case WF_CALL_JOIN:
      fprintf(trace, "join %u %u %u %u %u\n", s, (unsigned)c.window, (unsigned)c.start, (unsigned)c.exponent, (unsigned)c.weight);
      break;
    case WF_CALL_LEAVE: fprintf(trace, "leave %u\n", s); break;
    case WF_CALL_RATE: write_rate(&c); break;
    case WF_CALL_TICK: fprintf(trace, "tick %lu\n", (unsigned long)c.by); break;
    case WF_CALL_ENQUEUE: fprintf(trace, "enq %u %u %lu %u\n", s, (unsigned)c.tid, (unsigned long)c.flow, (unsigned)c.length); break;
    case WF_CALL_PULL: write_pull(&c); break;
    case WF_CALL_ARRIVE: fprintf(trace, "arrive %llu %u\n", (unsigned long long)c.exchange, (unsigned)c.index); break;
    case WF_CALL_ANSWER: fprintf(trace, "answer %llu\n", (unsigned long long)c.exchange); break;
    case WF_CALL_DONE: write_done(&c); break;
    case WF_CALL_SLEEP: fprintf(trace, "sleep %u\n", s); break;
    case WF_CALL_WAKE: fprintf(trace, "wake %u\n", s); break;
    case WF_CALL_POLL: fprintf(trace, "poll %u\n", s); break;
    case WF_CALL_RX: fprintf(trace, "rx %u %s %lu\n", s, CLASSES[c.class_], (unsigned long)c.air); break;
    case WF_CALL_REAP: fprintf(trace, "reap\n"); break;
    case WF_CALL_AMPDU: fprintf(trace, "ampdu %u %lu\n", s, (unsigned long)c.octets); break;
    case WF_CALL_STOP: fprintf(trace, "stop %u\n", s); break;
    case WF_CALL_START: fprintf(trace, "start %u\n", s); break;
    case WF_CALL_UNSENT: fprintf(trace, "unsent %llu %u\n", (unsigned long long)c.exchange, (unsigned)c.index); break;
    case WF_CALL_GIVEUP: fprintf(trace, "giveup %llu %u\n", (unsigned long long)c.exchange, (unsigned)c.index); break;
    case WF_CALL_FLUSH: fprintf(trace, "flush %u %u\n", s, (unsigned)c.tid); break;
    case WF_CALL_OFFLOAD: fprintf(trace, "offload %u %u %u\n", s, (unsigned)c.exponent, (unsigned)c.weight); break;
    case WF_CALL_WEIGHT: fprintf(trace, "weight %u %u\n", s, (unsigned)c.weight); break;
    case WF_CALL_PLAIN:
      fprintf(trace, "plain %u %u %u %u\n", s, (unsigned)c.start, (unsigned)c.exponent, (unsigned)c.weight);
      break;
    case WF_CALL_HOLD: fprintf(trace, "hold %u %u\n", s, (unsigned)c.tid); break;
    case WF_CALL_BEGIN: fprintf(trace, "begin %u %u %u\n", s, (unsigned)c.tid, (unsigned)c.window); break;
    case WF_CALL_FREE: fprintf(trace, "free %u %u\n", s, (unsigned)c.tid); break;
    case WF_CALL_CEASE: fprintf(trace, "cease %u %u\n", s, (unsigned)c.tid); break;
    case WF_CALL_GROUP: write_group_call(&c, "group"); break;
    case WF_CALL_BEACON: write_group_call(&c, "beacon"); break;
    case WF_CALL_GPULL: write_group_call(&c, "gpull"); break;
    case WF_CALL_GDONE: write_group_call(&c, "gdone"); break;
    case WF_CALL_APSD: fprintf(trace, "apsd %u %u %u\n", s, (unsigned)c.classes, (unsigned)c.most); break;
    case WF_CALL_TRIGGER: fprintf(trace, "trigger %u\n", s); break;
    case WF_CALL_EOSP: fprintf(trace, "eosp %u\n", s); break;
    case WF_CALL_BSS: fprintf(trace, "bss %u %u\n", s, (unsigned)c.bss); break;
    default: fail("an entry of no kind");
  }
}

static void open_cell(uint32_t calls) {
  struct wf_settings settings = {0};
  wf_settings_standard(&settings);
  settings.stations = STATIONS;
  settings.flows = 32;
  settings.limit = 40;
  settings.room = 400;
  settings.attempts = 4;
  settings.sleeping = 8;
  settings.charge = CHARGE;
  settings.legacy = 2;
  settings.period = 2;
  settings.buffered = 5;
  settings.bsses = BSSES;
  settings.calls = 0;
  if (wf_cell_make(&cell, &settings) != WF_BAD_SETTING + 12) fail("a history of no calls is taken");
  settings.calls = calls;
  if (wf_cell_make(&cell, &settings)) fail("there is no cell");
  fprintf(trace, "cell stations=%d flows=32 limit=40 room=400 attempts=4 sleeping=8 charge=%d legacy=2 period=2 buffered=5 bsses=%d\n",
          STATIONS, CHARGE, BSSES);
}

/* Checks that with a full history each call is refused and is no entry. */
static void look_at_the_end(uint64_t calls) {
  struct wf_call none = {0};
  uint32_t caller = 0;
  none.kind = WF_CALL_REAP;
  if (wf_cell_ask(&cell, 0, &none, &reply) != WF_BAD_CALL) fail("a reap without a buffer is taken");
  none.kind = WF_CALL_RATE;
  none.form = WF_FORM_DSSS + 1;
  if (wf_cell_ask(&cell, 0, &none, &reply) != WF_BAD_CALL) fail("a rate of no format is taken");
  none.kind = WF_CALL_TICK;
  if (wf_cell_ask(&cell, 0, &none, &reply) != WF_HISTORY_FULL) fail("a call past the end is taken");
  if (wf_cell_len(&cell) != calls || wf_cell_room(&cell)) fail("another length");
  if (wf_cell_entry(&cell, calls, &caller, &none) != WF_BAD_INDEX) fail("an entry too many");
}

int main(int count, char **words) {
  uint64_t place;
  long calls, i;
  if (count != 5) fail("both CALLS SEED TRACE ANSWERS");
  calls = atol(words[1]);
  seed = (uint32_t)atol(words[2]);
  trace = fopen(words[3], "w");
  answers = fopen(words[4], "w");
  if (!trace || !answers) fail("no file");
  open_cell((uint32_t)calls);
  for (i = 0; i < calls; i++) call();
  look_at_the_end((uint64_t)calls);
  for (place = 0; place < wf_cell_len(&cell); place++) write_entry(place);
  fprintf(trace, "end\n");
  fprintf(answers, "calls %llu\n", (unsigned long long)wf_cell_len(&cell));
  wf_cell_free(&cell);
  if (fclose(trace) || fclose(answers)) fail("a file that cannot be written");
  return 0;
}
