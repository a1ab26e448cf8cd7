/*
 * An account of packets, for the drivers ring.c, firmware.c, reset.c and addba.c. Each packet has a number, which is its
 * tag. It has to come back from the path exactly once, and the path has to count as many transmissions of it as
 * the device made.
 */
#ifndef ACCOUNT_H
#define ACCOUNT_H

#include <stdint.h>
#include <stdio.h>

#include "wf.h"

enum { PACKETS = 6000, OCTETS = 1000, FATES = WF_ENDED + 1 };

struct account {
  uint8_t is_inside[PACKETS]; /* by number: 1 while the path has the packet */
  uint8_t sent[PACKETS];      /* by number: how often the device sent it */
  uint64_t given, back;       /* packets that the path accepted, and those that came back */
  uint64_t fates[FATES];      /* those that came back, by enum wf_fate */
  int faults;
};

/* Passes the next packet to the path, as a frame without octets. Returns the code of the enqueue. */
static inline int32_t account_give(struct account *account, struct wf_path *path, uint16_t station, uint8_t tid) {
  struct wf_reply reply = {0};
  struct wf_bare packet = {0};
  int32_t code;
  packet.tag = account->given;
  packet.length = OCTETS;
  packet.flow = (uint32_t)station << 3 | tid;
  packet.tid = tid;
  code = wf_path_enqueue_bare(path, station, &packet, &reply);
  if (code == WF_OK) account->is_inside[account->given++] = 1;
  return code;
}

/* Notes that the device sent the packet with this number. */
static inline void account_send(struct account *account, uint64_t number) {
  if (number < account->given && account->is_inside[number]) account->sent[number]++;
  else account->faults++;
}

/* Notes a packet that came back. */
static inline void account_take(struct account *account, const struct wf_taken *taken) {
  if (taken->tag >= account->given || !account->is_inside[taken->tag]) {
    account->faults++;
    return;
  }
  account->is_inside[taken->tag] = 0;
  account->back++;
  account->fates[taken->fate]++;
  if (taken->attempts != account->sent[taken->tag] || taken->length != OCTETS) account->faults++;
}

/* Reaps the finished frames. */
static inline void account_reap(struct account *account, struct wf_path *path) {
  struct wf_reply reply = {0};
  struct wf_taken taken = {0};
  while (wf_path_reap(path, &reply, &taken, NULL, 0) == WF_OK) account_take(account, &taken);
}

/* Returns whether all packets were given and came back. */
static inline int account_is_closed(const struct account *account) {
  return account->given == PACKETS && account->back == PACKETS;
}

/* Returns whether the account is closed, without a fault, and equals that of the path. */
static inline int account_fits(const struct account *account, const struct wf_path *path) {
  struct wf_tally tally = {0};
  wf_path_tally(path, &tally);
  return account->faults == 0 && account_is_closed(account) && tally.accepted == account->given &&
         tally.acked == account->fates[WF_ACKED] && tally.overlimit == account->fates[WF_OVERLIMIT] &&
         tally.codel == account->fates[WF_CODEL] && tally.retries == account->fates[WF_RETRIES] &&
         tally.left == account->fates[WF_LEFT] && tally.flushed == account->fates[WF_FLUSHED] &&
         tally.ended == account->fates[WF_ENDED];
}

/* Prints how many packets came back, by their fates. */
static inline void account_print(const struct account *account, const char *program) {
  int fate;
  printf("%s: %lu packets came back:", program, (unsigned long)account->back);
  for (fate = WF_ACKED; fate < FATES; fate++) {
    char name[WF_NAME] = {0};
    wf_fate_name(fate, name);
    printf(" %s %lu", name, (unsigned long)account->fates[fate]);
  }
  printf("\n");
}

#endif
