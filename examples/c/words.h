/*
 * The words of docs/TRACE.md for the answers of libwf.
 */
#ifndef WORDS_H
#define WORDS_H

#include <stdio.h>

#include "wf.h"

static const char *const CLASSES[] = {"bk", "be", "vi", "vo"};
static const char *const GUARDS[] = {"long", "short"};

static void write_send(FILE *out, const struct wf_reply *reply, const struct wf_frames *frames) {
  uint16_t i;
  fprintf(out, " %llu sta %u tid %u air %lu ", (unsigned long long)reply->exchange, (unsigned)reply->station,
          (unsigned)reply->tid, (unsigned long)reply->air);
  if (reply->request) {
    fprintf(out, "bar %u", (unsigned)reply->start);
  } else {
    fprintf(out, reply->batch ? "batch" : reply->plain ? "plain" : "data");
    for (i = 0; i < frames->count; i++) {
      fprintf(out, " %llu", (unsigned long long)frames->ids[i]);
      if (!reply->batch) fprintf(out, ":%u", (unsigned)frames->numbers[i]);
    }
  }
  if (reply->more) fprintf(out, " more");
  if (reply->eosp) fprintf(out, " eosp");
}

static void write_accepted(FILE *out, const struct wf_reply *reply) {
  fprintf(out, " %llu", (unsigned long long)reply->id);
  if (reply->has_dropped) fprintf(out, " dropped %llu", (unsigned long long)reply->dropped);
}

static void write_reaped(FILE *out, const struct wf_reply *reply) {
  char fate[WF_NAME] = {0};
  wf_fate_name(reply->fate, fate);
  fprintf(out, " %llu %s", (unsigned long long)reply->id, fate);
}

/* Returns whether the word of a refusal has a number after it that is the `count` of the reply. */
static int has_count(uint8_t refusal) {
  return (refusal >= WF_OPEN && refusal <= WF_FULL) || refusal == WF_WAITS || refusal == WF_BUFFERED;
}

static void write_refusal(FILE *out, const struct wf_reply *reply) {
  char refusal[WF_NAME] = {0};
  wf_code_name(reply->refusal, refusal);
  fprintf(out, " %s", refusal);
  if (reply->refusal == WF_DEBT) fprintf(out, " %lld", (long long)reply->deficit);
  if (reply->refusal == WF_AHEAD) fprintf(out, " %lu", (unsigned long)reply->air);
  if (has_count(reply->refusal)) fprintf(out, " %lu", (unsigned long)reply->count);
}

/* Writes the group frame to send: its id, its sequence number, its airtime and the More Data bit. */
static void write_group(FILE *out, const struct wf_reply *reply) {
  fprintf(out, " %llu %u air %lu", (unsigned long long)reply->id, (unsigned)reply->start, (unsigned long)reply->air);
  if (reply->more) fprintf(out, " more");
}

/* Writes the line of an answer of a path. Returns 0 if only a cell has this answer, and then writes nothing. The
 * line of WF_KIND_CEASED ends with the count: a path does not know the frames that the station passed up. */
static int write_words(FILE *out, const struct wf_reply *reply, const struct wf_frames *frames) {
  char kind[WF_NAME] = {0};
  if (reply->kind == WF_KIND_RELEASED || reply->kind == WF_KIND_BA || reply->kind == WF_KIND_ACK) return 0;
  wf_kind_name(reply->kind, kind);
  fprintf(out, "%s", kind);
  switch (reply->kind) {
    case WF_KIND_LEFT:
    case WF_KIND_FLUSHED:
    case WF_KIND_CEASED: fprintf(out, " %lu", (unsigned long)reply->count); break;
    case WF_KIND_HELD: fprintf(out, " %u", (unsigned)reply->start); break;
    case WF_KIND_NOW: fprintf(out, " %llu", (unsigned long long)reply->now); break;
    case WF_KIND_ACCEPTED: write_accepted(out, reply); break;
    case WF_KIND_SEND: write_send(out, reply, frames); break;
    case WF_KIND_DONE:
      fprintf(out, " acked %u waiting %u failed %u", (unsigned)reply->acked, (unsigned)reply->waiting,
              (unsigned)reply->failed);
      break;
    case WF_KIND_POLLED:
    case WF_KIND_TRIGGERED: fprintf(out, " %s", CLASSES[reply->class_]); break;
    case WF_KIND_CHARGED: fprintf(out, " %lld", (long long)reply->deficit); break;
    case WF_KIND_REAPED: write_reaped(out, reply); break;
    case WF_KIND_REFUSED: write_refusal(out, reply); break;
    case WF_KIND_QUEUED:
    case WF_KIND_GDONE: fprintf(out, " %llu", (unsigned long long)reply->id); break;
    case WF_KIND_BEACON: fprintf(out, " %lu %u", (unsigned long)reply->count, (unsigned)reply->more); break;
    case WF_KIND_GSEND: write_group(out, reply); break;
    default: break;
  }
  fprintf(out, "\n");
  return 1;
}

#endif
