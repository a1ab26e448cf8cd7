/*
 * A program outside the tree: one frame goes to one station, and comes back acknowledged.
 */
#include <stdio.h>

#include <wf.h>

#if WF_VERSION_MAJOR != 1
#error "another version"
#endif

int main(void) {
  static struct wf_frames frames;
  static uint8_t body[WF_GREATEST_BODY];
  struct wf_path path = {0};
  struct wf_settings settings = {0};
  struct wf_reply reply = {0};
  struct wf_packet packet = {0};
  struct wf_taken taken = {0};
  uint8_t bits[32] = {1};

  packet.body = body;
  packet.length = 1500;
  packet.flow = 7;
  packet.tid = 5;
  wf_settings_standard(&settings);
  if (wf_path_make(&path, &settings) != WF_OK) return 1;
  if (wf_path_join(&path, 3, 64, 4095, 3, 1, &reply) != WF_OK) return 1;
  if (wf_path_enqueue(&path, 3, &packet, &reply) != WF_OK) return 1;
  printf("frame %d is accepted\n", (int)reply.id);
  if (wf_path_pull(&path, WF_VI, &reply, &frames) != WF_OK) return 1;
  printf("exchange %d: %d microseconds, frame %d, number %d\n", (int)reply.exchange, (int)reply.air,
         (int)frames.ids[0], (int)frames.numbers[0]);
  if (wf_path_done_bits(&path, reply.exchange, 4095, bits, 0, &reply) != WF_OK) return 1;
  printf("%d acknowledged\n", (int)reply.acked);
  if (wf_path_reap(&path, &reply, &taken, body, sizeof body) != WF_OK) return 1;
  printf("reaped: station %d, TID %d, flow %d, %d octets, fate %d\n", (int)taken.station, (int)taken.tid,
         (int)taken.flow, (int)taken.length, (int)reply.fate);
  wf_path_free(&path);
  return 0;
}
