/*
 * Makes the mistakes that libwf can detect, and expects the codes of wf.h. After a refusal the caller's
 * structs and buffers have to be unchanged. It prints how many calls it made, and each unexpected code.
 */
#include <stdint.h>
#include <stdio.h>
#include <string.h>

#include "wf.h"

enum { STATIONS = 4, CHARGE = 5000, PLACES = sizeof(struct wf_settings) / sizeof(uint32_t) };

/* Two values outside the range of each setting. */
static const uint32_t OUTSIDE[][2] = {
    /* begin outside: tools/tables writes these lines */
    {0u, 257u}, /* stations */
    {0u, 4097u}, /* flows */
    {0u, 65536u}, /* limit */
    {0u, 131073u}, /* room */
    {63u, 65536u}, /* flow_quantum */
    {99u, 10001u}, /* quantum */
    {0u, 9u}, /* inflight */
    {0u, 65u}, /* attempts */
    {0u, 257u}, /* agg */
    {2999u, 5401u}, /* cap */
    {0u, 65536u}, /* sleeping */
    {0u, 0u}, /* calls */
    {65536u, 65536u}, /* charge */
    {1000001u, 1000001u}, /* debt */
    {262145u, 262145u}, /* aql_total */
    {2u, 2u}, /* keep_order */
    {2u, 2u}, /* codel_reset */
    {262145u, 262145u}, /* aql */
    {2u, 2u}, /* pending */
    {33u, 33u}, /* overhead */
    {5401u, 5401u}, /* cap_vi */
    {5401u, 5401u}, /* cap_vo */
    {2u, 2u}, /* answers */
    {2u, 2u}, /* credits */
    {3u, 3u}, /* legacy */
    {256u, 256u}, /* period */
    {65536u, 65536u}, /* buffered */
    {17u, 17u}, /* bsses */
    /* end outside */
};

static struct wf_path path;
static struct wf_reply reply;
static struct wf_frames frames;
static int asked, failed;

/* Checks that a call returned this code. */
static void want(int32_t code, int32_t wanted, const char *call) {
  char name[WF_NAME] = {0}, other[WF_NAME] = {0};
  asked++;
  if (code == wanted) return;
  wf_code_name(code, name);
  wf_code_name(wanted, other);
  printf("misuse: %s: %d (%s), and not %d (%s)\n", call, (int)code, name, (int)wanted, other);
  failed++;
}

/* Checks that a call left these octets unchanged. */
static void unchanged(const void *now, const void *before, size_t size, const char *call) {
  asked++;
  if (memcmp(now, before, size) == 0) return;
  printf("misuse: %s: has changed what it was given\n", call);
  failed++;
}

/* Returns a packet with this body and the placeholder source. */
static struct wf_packet packet_of(uint8_t tid, const uint8_t *body, size_t length) {
  struct wf_packet packet = {0};
  packet.body = body;
  packet.length = length;
  packet.tid = tid;
  return packet;
}

/* Returns small settings, all in their ranges. */
static struct wf_settings some_settings(void) {
  struct wf_settings settings = {0};
  wf_settings_standard(&settings);
  settings.stations = STATIONS;
  settings.flows = 32;
  settings.room = 70;
  settings.limit = 60;
  settings.sleeping = 2;
  settings.inflight = 1;
  settings.calls = 8;
  settings.charge = CHARGE;
  return settings;
}

/* Makes a path and a cell with this value in one place of the settings. */
static void misuse_setting(int place, uint32_t value) {
  struct wf_path none = {0}, empty = {0};
  struct wf_cell no_cell = {0};
  struct wf_settings settings = some_settings();
  uint32_t values[PLACES];
  memcpy(values, &settings, sizeof values);
  values[place] = value;
  memcpy(&settings, values, sizeof values);
  want(wf_path_make(&none, &settings), WF_BAD_SETTING + 1 + place, "wf_path_make");
  want(wf_cell_make(&no_cell, &settings), WF_BAD_SETTING + 1 + place, "wf_cell_make");
  unchanged(&none, &empty, sizeof none, "wf_path_make");
}

/* Each setting outside its range, and each reserved number. */
static void misuse_settings(void) {
  int known = sizeof OUTSIDE / sizeof *OUTSIDE, place, i;
  for (place = 0; place < PLACES; place++)
    for (i = 0; i < 2; i++) misuse_setting(place, place < known ? OUTSIDE[place][i] : 1u + 6u * (uint32_t)i);
}

/* The settings for devices are in their ranges. */
static void use_device_settings(void) {
  struct wf_path made = {0};
  struct wf_settings settings = {0};
  wf_settings_device(&settings);
  want(wf_path_make(&made, &settings), WF_OK, "the settings for devices");
  wf_path_free(&made);
}

/* Calls for station numbers that do not exist, or that are not live. */
static void misuse_stations(void) {
  static const uint8_t body[100];
  const struct wf_packet packet = packet_of(0, body, sizeof body);
  const uint16_t none = STATIONS;
  want(wf_path_join(&path, none, 64, 0, 3, 1, &reply), WF_BAD_STATION, "wf_path_join");
  want(wf_path_join_offload(&path, none, 3, 1, &reply), WF_BAD_STATION, "wf_path_join_offload");
  want(wf_path_plain(&path, none, 0, 3, 1, &reply), WF_BAD_STATION, "wf_path_plain");
  want(wf_path_hold(&path, none, 0, &reply), WF_BAD_STATION, "wf_path_hold");
  want(wf_path_begin(&path, none, 0, 64, &reply), WF_BAD_STATION, "wf_path_begin");
  want(wf_path_free_tid(&path, none, 0, &reply), WF_BAD_STATION, "wf_path_free_tid");
  want(wf_path_cease(&path, none, 0, &reply), WF_BAD_STATION, "wf_path_cease");
  want(wf_path_weight(&path, none, 1, &reply), WF_BAD_STATION, "wf_path_weight");
  want(wf_path_leave(&path, none, &reply), WF_BAD_STATION, "wf_path_leave");
  want(wf_path_rate_ht(&path, none, 7, 20, 0, &reply), WF_BAD_STATION, "wf_path_rate_ht");
  want(wf_path_sleep(&path, none, &reply), WF_BAD_STATION, "wf_path_sleep");
  want(wf_path_wake(&path, none, &reply), WF_BAD_STATION, "wf_path_wake");
  want(wf_path_ampdu(&path, none, 4096, &reply), WF_BAD_STATION, "wf_path_ampdu");
  want(wf_path_stop(&path, none, &reply), WF_BAD_STATION, "wf_path_stop");
  want(wf_path_start(&path, none, &reply), WF_BAD_STATION, "wf_path_start");
  want(wf_path_flush(&path, none, 0, &reply), WF_BAD_STATION, "wf_path_flush");
  want(wf_path_poll(&path, none, &reply), WF_BAD_STATION, "wf_path_poll");
  want(wf_path_rx(&path, none, WF_BE, 100, &reply), WF_BAD_STATION, "wf_path_rx");
  want(wf_path_enqueue(&path, none, &packet, &reply), WF_BAD_STATION, "wf_path_enqueue");
  want(wf_path_join_offload(&path, 3, 4, 0, &reply), WF_BAD_EXPONENT, "an offloaded station of exponent 4");
  want(wf_path_join_offload(&path, 3, 3, 17, &reply), WF_BAD_WEIGHT, "an offloaded station of weight 17");
  want(wf_path_hold(&path, 3, 0, &reply), WF_NO_STATION, "wf_path_hold");
  want(wf_path_begin(&path, 3, 0, 64, &reply), WF_NO_STATION, "wf_path_begin");
  want(wf_path_free_tid(&path, 3, 0, &reply), WF_NO_STATION, "wf_path_free_tid");
  want(wf_path_cease(&path, 3, 0, &reply), WF_NO_STATION, "wf_path_cease");
  want(wf_path_weight(&path, 3, 17, &reply), WF_BAD_WEIGHT, "a weight of 17");
  want(wf_path_weight(&path, 3, 1, &reply), WF_NO_STATION, "wf_path_weight");
  want(wf_path_leave(&path, 3, &reply), WF_NO_STATION, "wf_path_leave");
  want(wf_path_rate_ht(&path, 3, 7, 20, 0, &reply), WF_NO_STATION, "wf_path_rate_ht");
  want(wf_path_sleep(&path, 3, &reply), WF_NO_STATION, "wf_path_sleep");
  want(wf_path_wake(&path, 3, &reply), WF_NO_STATION, "wf_path_wake");
  want(wf_path_ampdu(&path, 3, 4096, &reply), WF_NO_STATION, "wf_path_ampdu");
  want(wf_path_stop(&path, 3, &reply), WF_NO_STATION, "wf_path_stop");
  want(wf_path_start(&path, 3, &reply), WF_NO_STATION, "wf_path_start");
  want(wf_path_flush(&path, 3, 0, &reply), WF_NO_STATION, "wf_path_flush");
  want(wf_path_flush(&path, 3, 8, &reply), WF_BAD_TID, "a flush of TID 8");
  want(wf_path_poll(&path, 3, &reply), WF_NO_STATION, "wf_path_poll");
  want(wf_path_rx(&path, 3, WF_BE, 100, &reply), WF_NO_STATION, "wf_path_rx");
  want(wf_path_enqueue(&path, 3, &packet, &reply), WF_NO_STATION, "wf_path_enqueue");
}

/* Group addresses, and addresses of station numbers that do not exist. */
static void misuse_addresses(void) {
  static const uint8_t GROUP[6] = {0x01, 0, 0x5e, 0, 0, 1}, REAL[6] = {0x00, 0, 0x5e, 0, 0x53, 1}, MADE_UP[6] = {0x02, 0, 0, 0x01, 0, 2};
  uint8_t told[6] = {0}, before[6] = {0};
  wf_path_base(&path, before);
  want(wf_path_set_base(&path, GROUP), WF_BAD_ADDRESS, "a group for an access point");
  wf_path_base(&path, told);
  unchanged(told, before, 6, "a group for an access point");
  want(wf_path_set_address(&path, 2, GROUP), WF_BAD_ADDRESS, "a group for a station");
  want(wf_path_address(&path, 2, told), WF_OK, "wf_path_address");
  unchanged(told, MADE_UP, 6, "a group for a station");
  want(wf_path_set_address(&path, STATIONS, REAL), WF_BAD_STATION, "the address of no station");
  want(wf_path_set_address(&path, STATIONS, GROUP), WF_BAD_STATION, "a group for no station");
  want(wf_path_set_address(&path, 65535, REAL), WF_BAD_STATION, "the address of no station");
  want(wf_path_address(&path, STATIONS, told), WF_BAD_STATION, "wf_path_address");
  unchanged(told, MADE_UP, 6, "the address of no station");
  want(wf_path_set_address(&path, 3, REAL), WF_OK, "the address of a station that is not live");
  want(wf_path_set_address(&path, 2, REAL), WF_OK, "the same address for another");
}

/* BSSs that do not exist, addresses of BSSs that are group addresses, and association identifiers that are out of their range. */
static void misuse_bsses(void) {
  static const uint8_t GROUP[6] = {0x01, 0, 0x5e, 0, 0, 1}, REAL[6] = {0x00, 0, 0x5e, 0, 0x53, 2};
  uint8_t tim[256] = {0}, other[256] = {0};
  want(wf_path_set_bss(&path, 0, GROUP), WF_BAD_ADDRESS, "a group for a BSS");
  want(wf_path_set_bss(&path, 1, REAL), WF_BAD_BSS, "the address of no BSS");
  want(wf_path_set_bss(&path, 255, GROUP), WF_BAD_BSS, "a group for no BSS");
  want(wf_path_set_bss(&path, 0, REAL), WF_OK, "the address of the only BSS");
  want(wf_path_set_station_bss(&path, STATIONS, 1, &reply), WF_BAD_STATION, "the BSS of no station");
  want(wf_path_set_station_bss(&path, 3, 1, &reply), WF_BAD_BSS, "no BSS of a station");
  want(wf_path_set_station_bss(&path, 3, 0, &reply), WF_NO_STATION, "the BSS of a station that is not live");
  want(wf_path_set_station_bss(&path, 2, 0, &reply), WF_OK, "the only BSS of a station");
  want(wf_path_set_aid(&path, 2, 0), WF_BAD_AID, "the association identifier 0");
  want(wf_path_set_aid(&path, 2, 2008), WF_BAD_AID, "the association identifier 2008");
  want(wf_path_set_aid(&path, STATIONS, 1), WF_BAD_STATION, "the association identifier of no station");
  want(wf_path_set_aid(&path, 65535, 0), WF_BAD_STATION, "the association identifier 0 of no station");
  want(wf_path_set_aid(&path, 3, 2007), WF_OK, "the association identifier of a station that is not live");
  want(wf_path_tim(&path, 0, 0, 1, 0, tim) == 6, 1, "the TIM of stations without traffic");
  want(wf_path_tim(&path, 255, 0, 1, 0, other) == 6, 1, "the TIM of a BSS that there is not");
  unchanged(other, tim, sizeof other, "the TIM of a BSS that there is not");
}

/* Group frames that no path takes, and the end of one that is not on the air. */
static void misuse_groups(void) {
  static const uint8_t GROUP[6] = {0x01, 0, 0x5e, 0, 0, 1}, REAL[6] = {0x00, 0, 0x5e, 0, 0x53, 2};
  struct wf_group frame = {7, 7, 7, {7, 7, 7, 7, 7, 7}}, same = frame;
  struct wf_group_counts counts = {0};
  struct wf_reply before = reply;
  uint8_t header[WF_GROUP_HEADER] = {0}, zeros[WF_GROUP_HEADER] = {0};
  want(wf_path_group(&path, 1, REAL, 0, 1, &reply), WF_BAD_LENGTH, "a group frame without octets");
  want(wf_path_group(&path, 1, GROUP, WF_GREATEST_BODY + 1, 1, &reply), WF_BAD_LENGTH, "a group frame that is too long");
  want(wf_path_group(&path, 1, REAL, 100, 1, &reply), WF_BAD_ADDRESS, "a group frame for a station");
  unchanged(&reply, &before, sizeof reply, "a group frame that is none");
  want(wf_path_group(&path, 1, GROUP, 100, 1, &reply), WF_BAD_BSS, "a group frame of no BSS");
  want(wf_path_group(&path, 0, GROUP, 100, 1, &reply), WF_BUFFERED, "a group frame where none may wait");
  want(wf_path_group_pull(&path, 1, &frame, &reply), WF_BAD_BSS, "a group frame from the queue of no BSS");
  want(wf_path_group_pull(&path, 0, &frame, &reply), WF_IDLE, "a group frame from an empty queue");
  want(wf_path_group_done(&path, 1, &frame, &reply), WF_BAD_BSS, "the end of a group frame of no BSS");
  want(wf_path_group_done(&path, 0, &frame, &reply), WF_NOTHING, "the end of no group frame");
  unchanged(&frame, &same, sizeof frame, "no group frame");
  want(wf_path_group_header(&path, 1, REAL, header), WF_BAD_BSS, "the header of a group frame of no BSS");
  want(wf_path_group_header(&path, 0, REAL, header), WF_NOTHING, "the header of no group frame");
  unchanged(header, zeros, sizeof header, "the header of no group frame");
  want(wf_path_beacon(&path, 1, &reply), WF_BAD_BSS, "a beacon of no BSS");
  want(wf_path_beacon(&path, 0, &reply), WF_OK, "a beacon");
  want(wf_path_group_counts(&path, 1, &counts), WF_BAD_BSS, "the counts of no BSS");
  want(counts.numbers == 0, 1, "the counts of no BSS");
  want(wf_path_group_counts(&path, 0, &counts), WF_OK, "the counts of group frames");
  want(counts.accepted == 0 && counts.numbers == 1, 1, "the counts of group frames");
}

/* Service periods of stations that have none. */
static void misuse_services(void) {
  want(wf_path_apsd(&path, STATIONS, 16, 0, &reply), WF_BAD_STATION, "the classes of no station");
  want(wf_path_apsd(&path, 3, 16, 0, &reply), WF_BAD_CLASSES, "classes that there are not");
  want(wf_path_apsd(&path, 3, 15, 255, &reply), WF_NO_STATION, "the classes of a station that is not live");
  want(wf_path_trigger(&path, STATIONS, &reply), WF_BAD_STATION, "a trigger of no station");
  want(wf_path_trigger(&path, 3, &reply), WF_NO_STATION, "a trigger of a station that is not live");
  want(wf_path_trigger(&path, 2, &reply), WF_AWAKE, "a trigger of a station that is awake");
  want(wf_path_end_service(&path, STATIONS, &reply), WF_BAD_STATION, "the end of no station's service period");
  want(wf_path_end_service(&path, 3, &reply), WF_NO_STATION, "the end of one of a station that is not live");
  want(wf_path_end_service(&path, 2, &reply), WF_NOTHING, "the end of no service period");
}

static void misuse_joins(void) {
  want(wf_path_join(&path, 3, 0, 0, 3, 1, &reply), WF_BAD_WINDOW, "a window of 0");
  want(wf_path_join(&path, 3, 257, 0, 3, 1, &reply), WF_BAD_WINDOW, "a window of 257");
  want(wf_path_join(&path, 3, 64, 4096, 3, 1, &reply), WF_BAD_START, "a start of 4096");
  want(wf_path_join(&path, 3, 64, 0, 4, 1, &reply), WF_BAD_EXPONENT, "an exponent of 4");
  want(wf_path_join(&path, 3, 64, 0, 3, 0, &reply), WF_BAD_WEIGHT, "a weight of 0");
  want(wf_path_join(&path, 3, 64, 0, 3, 17, &reply), WF_BAD_WEIGHT, "a weight of 17");
  want(wf_path_join(&path, 0, 64, 0, 3, 1, &reply), WF_LIVE, "a second join");
  want(wf_path_plain(&path, 3, 4096, 4, 0, &reply), WF_BAD_START, "a start of 4096");
  want(wf_path_plain(&path, 3, 4095, 4, 0, &reply), WF_BAD_EXPONENT, "an exponent of 4");
  want(wf_path_plain(&path, 3, 4095, 3, 0, &reply), WF_BAD_WEIGHT, "a weight of 0");
  want(wf_path_plain(&path, 0, 4095, 3, 17, &reply), WF_BAD_WEIGHT, "a weight of 17");
  want(wf_path_plain(&path, 0, 0, 3, 1, &reply), WF_LIVE, "a second join");
}

static void misuse_rates(void) {
  want(wf_path_rate_ht(&path, 0, 16, 20, 0, &reply), WF_BAD_RATE, "MCS 16 of HT");
  want(wf_path_rate_ht(&path, 0, 7, 80, 0, &reply), WF_BAD_RATE, "80 MHz of HT");
  want(wf_path_rate_vht(&path, 0, 10, 80, 0, 1, &reply), WF_BAD_RATE, "MCS 10 of VHT");
  want(wf_path_rate_vht(&path, 0, 9, 20, 0, 1, &reply), WF_BAD_RATE, "MCS 9 of VHT on 20 MHz");
  want(wf_path_rate_vht(&path, 0, 9, 80, 0, 9, &reply), WF_BAD_RATE, "9 streams of VHT");
  want(wf_path_rate_he(&path, 0, 12, 80, 800, 1, &reply), WF_BAD_RATE, "MCS 12 of HE");
  want(wf_path_rate_he(&path, 0, 11, 80, 400, 1, &reply), WF_BAD_RATE, "400 ns of HE");
  want(wf_path_rate_he(&path, 0, 11, 80, 800, 0, &reply), WF_BAD_RATE, "no stream of HE");
  want(wf_path_rate_ofdm(&path, 0, 6, &reply), WF_BAD_RATE, "6 Mbit/s of OFDM with the setting `legacy` 0");
  want(wf_path_rate_dsss(&path, 0, 2, &reply), WF_BAD_RATE, "1 Mbit/s of DSSS with the setting `legacy` 0");
}

/* Rates of OFDM and DSSS in a path that allows them, for a station with agreements and for one without. */
static void misuse_legacy(void) {
  struct wf_settings settings = some_settings();
  settings.legacy = 2;
  want(wf_path_make(&path, &settings), WF_OK, "a path in the same handle");
  want(wf_path_join(&path, 1, 64, 0, 3, 1, &reply), WF_OK, "wf_path_join");
  want(wf_path_plain(&path, 2, 0, 3, 1, &reply), WF_OK, "wf_path_plain");
  want(wf_path_rate_ofdm(&path, STATIONS, 6, &reply), WF_BAD_STATION, "wf_path_rate_ofdm");
  want(wf_path_rate_dsss(&path, STATIONS, 2, &reply), WF_BAD_STATION, "wf_path_rate_dsss");
  want(wf_path_rate_ofdm(&path, 0, 6, &reply), WF_NO_STATION, "wf_path_rate_ofdm");
  want(wf_path_rate_dsss(&path, 0, 2, &reply), WF_NO_STATION, "wf_path_rate_dsss");
  want(wf_path_rate_ofdm(&path, 2, 7, &reply), WF_BAD_RATE, "7 Mbit/s of OFDM");
  want(wf_path_rate_dsss(&path, 2, 1, &reply), WF_BAD_RATE, "half a Mbit/s of DSSS");
  want(wf_path_rate_ofdm(&path, 1, 6, &reply), WF_AGREED, "OFDM for a station with agreements");
  want(wf_path_hold(&path, 2, 0, &reply), WF_OK, "wf_path_hold");
  want(wf_path_rate_dsss(&path, 2, 22, &reply), WF_AGREED, "DSSS for a station with a TID that is held");
  want(wf_path_free_tid(&path, 2, 0, &reply), WF_OK, "wf_path_free_tid");
  want(wf_path_rate_dsss(&path, 2, 22, &reply), WF_OK, "wf_path_rate_dsss");
  want(wf_path_hold(&path, 2, 0, &reply), WF_LEGACY, "a hold at a rate of DSSS");
  want(wf_path_rate_ht(&path, 2, 7, 20, 0, &reply), WF_OK, "wf_path_rate_ht");
  want(wf_path_hold(&path, 2, 0, &reply), WF_OK, "a hold at a rate of HT");
  wf_path_free(&path);
}

static void misuse_clock(void) {
  uint64_t now;
  want(wf_path_tick(&path, 10000001, &reply), WF_BAD_TICK, "a tick that is too long");
  want(wf_path_advance(&path, 25000000, &reply), WF_OK, "25 seconds");
  now = wf_path_now(&path);
  want(now == 25000000, 1, "the clock after 25 seconds");
  want(wf_path_advance(&path, now, &reply), WF_OK, "no time at all");
  want(wf_path_advance(&path, now - 1, &reply), WF_BAD_TICK, "a time that is over");
  want(wf_path_advance(&path, (uint64_t)1 << 61, &reply), WF_BAD_TICK, "the time 2^61");
  want(wf_path_now(&path) == now, 1, "the clock after refusals");
}

static void misuse_airtime(void) {
  want(wf_path_rx(&path, 0, WF_BE, 0, &reply), WF_BAD_AIR, "no airtime");
  want(wf_path_rx(&path, 0, WF_BE, 65536, &reply), WF_BAD_AIR, "too much airtime");
  while (wf_path_rx(&path, 2, WF_BE, 65535, &reply) == WF_OK) continue;
  want(reply.refusal, WF_DEBT, "a debt");
}

static void misuse_frames(void) {
  static uint8_t body[WF_GREATEST_BODY + 1];
  const struct wf_packet none = packet_of(0, body, 0), longer = packet_of(0, body, sizeof body), other = packet_of(8, body, 100);
  struct wf_packet packet = packet_of(0, body, WF_GREATEST_BODY);
  struct wf_reply before = reply;
  int i;
  want(wf_path_enqueue(&path, 0, &none, &reply), WF_BAD_LENGTH, "a body of no octet");
  want(wf_path_enqueue(&path, 0, &longer, &reply), WF_BAD_LENGTH, "a body that is too long");
  unchanged(&reply, &before, sizeof reply, "a bad length");
  want(wf_path_enqueue(&path, 0, &other, &reply), WF_BAD_TID, "TID 8");
  for (i = 0; i < 70; i++) {
    packet.tag = (uint64_t)i;
    want(wf_path_enqueue(&path, 0, &packet, &reply), WF_OK, "a frame of the greatest length");
  }
  want(wf_path_enqueue(&path, 0, &packet, &reply), WF_ROOM, "one frame too many");
}

/* Frames without octets, of which a path writes only the header. */
static void misuse_bare(void) {
  struct wf_bare packet = {0};
  struct wf_reply before = reply;
  struct wf_taken taken = {0};
  uint8_t out[WF_GREATEST_MPDU] = {0}, same[WF_GREATEST_MPDU] = {0}, body[WF_GREATEST_BODY] = {0};
  size_t size = 7;
  want(wf_path_reserve(&path, 2), WF_OK, "a reserve");
  want(wf_path_enqueue_bare(&path, 0, &packet, &reply), WF_BAD_LENGTH, "a length of 0");
  packet.length = WF_GREATEST_BODY + 1;
  want(wf_path_enqueue_bare(&path, 0, &packet, &reply), WF_BAD_LENGTH, "a length that is too long");
  unchanged(&reply, &before, sizeof reply, "a bad length");
  packet.length = WF_GREATEST_BODY;
  want(wf_path_enqueue_bare(&path, STATIONS, &packet, &reply), WF_BAD_STATION, "a length for no station");
  want(wf_path_enqueue_bare(&path, 3, &packet, &reply), WF_NO_STATION, "a length for a station that is not live");
  packet.tid = 8;
  want(wf_path_enqueue_bare(&path, 0, &packet, &reply), WF_BAD_TID, "a length of TID 8");
  packet.tid = 7;
  packet.tag = 9;
  want(wf_path_enqueue_bare(&path, 0, &packet, &reply), WF_OK, "a frame without octets");
  want(wf_path_pull(&path, WF_VO, &reply, &frames), WF_OK, "a pull of it");
  want(wf_path_mpdu(&path, reply.exchange, 0, out, sizeof out, &size), WF_NO_BODY, "its octets");
  want(wf_path_mpdu(&path, reply.exchange, 0, out, 1, &size), WF_NO_BODY, "its octets in a small buffer");
  want(wf_path_mpdu(&path, reply.exchange, 1, out, sizeof out, &size), WF_BAD_INDEX, "no second transmission");
  want(size == 7, 1, "the size of no octets");
  unchanged(out, same, sizeof out, "WF_NO_BODY");
  want(wf_path_header(&path, reply.exchange, 0, out), WF_OK, "its header");
  want(wf_path_done_bits(&path, reply.exchange, 0, (const uint8_t[32]){1}, 0, &reply), WF_OK, "its end");
  want(wf_path_reap(&path, &reply, &taken, NULL, 0), WF_OK, "the frame that was dropped for it");
  want(wf_path_reap(&path, &reply, &taken, body, sizeof body), WF_OK, "its reap");
  want(taken.tag == 9 && taken.length == WF_GREATEST_BODY && taken.bare == 1 && taken.fate == WF_ACKED, 1, "what was reaped");
  unchanged(body, same, sizeof body, "a reap of a frame without octets");
}

/* Classes above 3. */
static void misuse_classes(void) {
  struct wf_reply before = reply;
  struct wf_share share = {0}, none = {0};
  uint32_t air = 7;
  frames.count = 3;
  want(wf_path_pull(&path, WF_VO + 1, &reply, &frames), WF_BAD_CLASS, "a pull of class 4");
  want(frames.count, 3, "the frames of class 4");
  want(wf_path_rx(&path, 0, 255, 100, &reply), WF_BAD_CLASS, "airtime of class 255");
  want(wf_path_rx(&path, STATIONS, 4, 0, &reply), WF_BAD_CLASS, "no airtime of class 4");
  unchanged(&reply, &before, sizeof reply, "WF_BAD_CLASS");
  want(wf_path_share(&path, 0, 4, &share), WF_BAD_CLASS, "the share of class 4");
  want(wf_path_share(&path, 3, 4, &share), WF_BAD_CLASS, "the share of class 4");
  unchanged(&share, &none, sizeof share, "WF_BAD_CLASS");
  want(wf_path_pending(&path, 3, 4, &air), WF_BAD_CLASS, "the airtime in flight of class 4");
  want(wf_path_pending(&path, 3, WF_VO, &air), WF_NO_STATION, "the airtime in flight to no station");
  want(air == 7, 1, "the airtime in flight to no station");
  want(wf_path_can_pull(&path, 4), 0, "a pull of class 4");
  want(wf_path_listed(&path, 0, 4), 0, "the lists of class 4");
}

/* A burst of a path with this call after a tick. */
static void misuse_burst(struct wf_call other, int32_t code, const char *what) {
  struct wf_call calls[3] = {{0}, {0}, {0}};
  struct wf_reply replies[3] = {{0}, {0}, {0}}, none = {0};
  size_t made = 7;
  calls[0].kind = calls[2].kind = WF_CALL_TICK;
  calls[1] = other;
  want(wf_path_burst(&path, calls, 3, replies, 3, &made), code, what);
  want(made == (code == WF_OK ? 3 : 1) && replies[0].kind == WF_KIND_NOW, 1, "the calls before it");
  if (code != WF_OK) unchanged(&replies[1], &none, sizeof none, what);
  else want(replies[1].kind, WF_KIND_REFUSED, what);
}

static void misuse_bursts(void) {
  struct wf_call call = {0};
  struct wf_reply replies[1] = {{0}};
  size_t made = 7;
  call.kind = WF_CALL_TICK;
  want(wf_path_burst(&path, &call, 1, replies, 0, &made), WF_SMALL_BUFFER, "room for no reply");
  want(made == 0, 1, "no call");
  made = 7;
  want(wf_path_burst(&path, &call, 0, replies, 0, &made), WF_OK, "a burst of no call");
  want(made == 0, 1, "no call");
  call.kind = WF_CALL_ARRIVE;
  misuse_burst(call, WF_BAD_CALL, "an arrival at no receiver");
  call.kind = WF_CALL_ANSWER;
  misuse_burst(call, WF_BAD_CALL, "an answer of no receiver");
  call.kind = WF_CALL_DONE;
  call.heard = 1;
  misuse_burst(call, WF_BAD_CALL, "a BlockAck that was heard");
  call.heard = 0;
  call.exchange = 1000;
  misuse_burst(call, WF_OK, "the end of no exchange");
  call.kind = WF_CALL_UNSENT;
  misuse_burst(call, WF_OK, "a mark of no exchange");
  call.kind = WF_CALL_HOLD;
  misuse_burst(call, WF_OK, "a hold of a TID with an agreement");
  call.kind = WF_CALL_BSS + 1;
  misuse_burst(call, WF_BAD_CALL, "a call of no kind");
  call.kind = WF_CALL_GROUP;
  misuse_burst(call, WF_BAD_CALL, "a group frame without octets");
  call.kind = WF_CALL_PULL;
  call.class_ = 4;
  misuse_burst(call, WF_BAD_CALL, "a pull of class 4");
  call.kind = WF_CALL_ENQUEUE;
  misuse_burst(call, WF_BAD_LENGTH, "a length of 0");
  call.length = WF_GREATEST_BODY + 1;
  misuse_burst(call, WF_BAD_LENGTH, "a length that is too long");
  call.length = 1;
  call.station = 3;
  misuse_burst(call, WF_OK, "a frame for a station that is not live");
}

static void misuse_reaps(void) {
  static uint8_t body[WF_GREATEST_BODY], same[WF_GREATEST_BODY];
  struct wf_taken taken = {0}, none = {0};
  struct wf_reply before = reply;
  want(wf_path_reap(&path, &reply, &taken, body, 1), WF_SMALL_BUFFER, "room for one octet");
  want(wf_path_reap(&path, &reply, &taken, body, sizeof body - 1), WF_SMALL_BUFFER, "room for 2303 octets");
  unchanged(&reply, &before, sizeof reply, "a small buffer");
  while (wf_path_reap(&path, &reply, &taken, NULL, 0) == WF_OK) {
    want(taken.fate == WF_OVERLIMIT && taken.length == WF_GREATEST_BODY && taken.id == reply.id, 1, "a frame without its body");
    want(taken.tag == taken.id && taken.source[0] == 0x02 && taken.source[5] == 0, 1, "the tag and the source of a frame");
  }
  memset(&taken, 0, sizeof taken);
  want(wf_path_reap(&path, &reply, &taken, NULL, 0), WF_NOTHING, "a reap of nothing");
  want(wf_path_reap(&path, &reply, &taken, body, sizeof body), WF_NOTHING, "a reap of nothing");
  unchanged(&taken, &none, sizeof taken, "a reap of nothing");
  unchanged(body, same, sizeof body, "a reap of nothing");
}

/* Makes the octets of a correct BlockAck to an exchange. */
static void make_answer(uint64_t exchange, uint8_t answer[28]) {
  uint8_t frame[WF_GREATEST_MPDU] = {0};
  size_t size = 0;
  want(wf_path_mpdu(&path, exchange, 0, frame, sizeof frame, &size), WF_OK, "a transmission");
  memset(answer, 0, 28);
  answer[0] = 0x94;
  memcpy(answer + 4, frame + 10, 6);
  memcpy(answer + 10, frame + 4, 6);
  answer[16] = 0x04;
  memcpy(answer + 18, frame + 22, 2);
}

/* Octets that are not a BlockAck to an exchange, because one bit differs. */
static void misuse_answer(uint64_t exchange, const uint8_t answer[28], size_t octet, uint8_t bit, int32_t code, const char *what) {
  struct wf_reply before = reply;
  uint8_t other[28];
  memcpy(other, answer, 28);
  other[octet] ^= bit;
  want(wf_path_done_octets(&path, exchange, other, 28, 0, &reply), code, what);
  unchanged(&reply, &before, sizeof reply, what);
}

static void misuse_answers(uint64_t exchange) {
  uint8_t answer[28];
  make_answer(exchange, answer);
  want(wf_path_done_octets(&path, exchange, answer, 27, 0, &reply), WF_BLOCK_LENGTH, "27 octets");
  misuse_answer(exchange, answer, 0, 0x10, WF_BLOCK_KIND, "a BlockAckReq");
  misuse_answer(exchange, answer, 16, 0x04, WF_BLOCK_BASIC, "a basic BlockAck");
  misuse_answer(exchange, answer, 16, 0x02, WF_BLOCK_MULTI, "a BlockAck of many TIDs");
  misuse_answer(exchange, answer, 18, 0x01, WF_BLOCK_FRAGMENT, "a fragment number");
  misuse_answer(exchange, answer, 4, 0x02, WF_NOT_MINE, "a BlockAck to another");
  misuse_answer(exchange, answer, 10, 0x02, WF_NOT_MINE, "a BlockAck from another");
  misuse_answer(exchange, answer, 17, 0x10, WF_WRONG_TID, "a BlockAck of another TID");
  want(wf_path_done_octets(&path, exchange, answer, 28, CHARGE + 1, &reply), WF_BAD_AIR, "too much airtime");
  want(wf_path_done_lost(&path, exchange, CHARGE + 1, &reply), WF_BAD_AIR, "too much airtime");
  want(wf_path_done_octets(&path, exchange, answer, 28, CHARGE, &reply), WF_OK, "a BlockAck");
  want(wf_path_done_octets(&path, exchange, answer, 28, 0, &reply), WF_NO_EXCHANGE, "a second BlockAck");
  want(wf_path_done_bits(&path, exchange, 0, (const uint8_t[32]){0}, 0, &reply), WF_NO_EXCHANGE, "bits of no exchange");
  want(wf_path_done_lost(&path, exchange, 0, &reply), WF_NO_EXCHANGE, "the end of no exchange");
}

/* Marks of transmissions that do not exist, or that have a mark. The exchange has one transmission. */
static void misuse_marks(uint64_t exchange) {
  struct wf_reply before;
  want(wf_path_unsent(&path, exchange + 1, 0, &reply), WF_NO_EXCHANGE, "a mark of no exchange");
  want(wf_path_give_up(&path, exchange + 1, 0, &reply), WF_NO_EXCHANGE, "a mark of no exchange");
  want(wf_path_unsent(&path, exchange, 1, &reply), WF_BAD_INDEX, "a mark of no transmission");
  want(wf_path_give_up(&path, exchange, 65535, &reply), WF_BAD_INDEX, "a mark of no transmission");
  want(wf_path_unsent(&path, exchange, 0, &reply), WF_OK, "wf_path_unsent");
  want(reply.kind, WF_KIND_MARKED, "the answer to a mark");
  want(wf_path_unsent(&path, exchange, 0, &reply), WF_MARKED, "a second mark");
  want(wf_path_give_up(&path, exchange, 0, &reply), WF_MARKED, "another mark");
  want(wf_path_cancel(&path, exchange, &reply), WF_MARKED, "wf_path_cancel after a mark");
  want(wf_path_done_each(&path, exchange, (const uint8_t[1]){WF_OUTCOME_ACKED}, 1, 0, &reply), WF_MARKED, "outcomes after a mark");
  want(wf_path_done_bits(&path, exchange, 0, (const uint8_t[32]){1}, CHARGE + 1, &reply), WF_NO_ANSWER, "bits of what was not sent");
  before = reply;
  want(wf_path_done_each(&path, exchange, (const uint8_t[1]){WF_OUTCOME_GAVE_UP + 1}, 1, 0, &reply), WF_BAD_OUTCOME, "an outcome of 4");
  unchanged(&reply, &before, sizeof reply, "an outcome of 4");
}

/* Outcomes that are not those of an exchange with one transmission. */
static void misuse_outcomes(uint64_t exchange) {
  static const uint8_t many[300];
  struct wf_reply before;
  want(wf_path_done_each(&path, exchange + 1, many, 1, 0, &reply), WF_NO_EXCHANGE, "outcomes of no exchange");
  want(wf_path_done_each(&path, exchange + 1, many, 300, 0, &reply), WF_NO_EXCHANGE, "300 outcomes of no exchange");
  want(wf_path_done_each(&path, exchange, many, 0, 0, &reply), WF_BAD_INDEX, "no outcome");
  want(wf_path_done_each(&path, exchange, many, 2, CHARGE + 1, &reply), WF_BAD_INDEX, "two outcomes");
  want(wf_path_done_each(&path, exchange, many, 300, 0, &reply), WF_BAD_INDEX, "300 outcomes");
  want(wf_path_done_each(&path, exchange, many, 1, CHARGE + 1, &reply), WF_BAD_AIR, "too much airtime");
  before = reply;
  want(wf_path_done_each(&path, exchange, (const uint8_t[3]){0, 1, 255}, 3, CHARGE + 1, &reply), WF_BAD_OUTCOME, "an outcome of 255");
  unchanged(&reply, &before, sizeof reply, "an outcome of 255");
  want(wf_path_done_each(&path, exchange, (const uint8_t[1]){WF_OUTCOME_ACKED}, 1, CHARGE, &reply), WF_OK, "wf_path_done_each");
  want(reply.acked, 1, "an acknowledged frame");
  want(wf_path_done_each(&path, exchange, many, 1, 0, &reply), WF_NO_EXCHANGE, "outcomes of an exchange that is over");
  want(wf_path_cancel(&path, exchange, &reply), WF_NO_EXCHANGE, "wf_path_cancel of an exchange that is over");
}

/* A frame whose exchange is marked, then cancelled, then ended by its outcome. */
static void misuse_ends(void) {
  static const uint8_t body[100];
  const struct wf_packet packet = packet_of(0, body, sizeof body);
  struct wf_taken taken = {0};
  uint8_t answer[28];
  want(wf_path_enqueue(&path, 1, &packet, &reply), WF_OK, "wf_path_enqueue");
  want(wf_path_pull(&path, WF_BE, &reply, &frames), WF_OK, "a pull");
  make_answer(reply.exchange, answer);
  misuse_marks(reply.exchange);
  want(wf_path_done_octets(&path, wf_path_exchanges(&path) - 1, answer, 28, 0, &reply), WF_NO_ANSWER, "a BlockAck to what was not sent");
  want(wf_path_done_lost(&path, wf_path_exchanges(&path) - 1, 0, &reply), WF_OK, "the end of what was not sent");
  want(reply.waiting, 1, "a frame that waits again");
  want(wf_path_pull(&path, WF_BE, &reply, &frames), WF_OK, "a second pull");
  want(wf_path_cancel(&path, wf_path_exchanges(&path) - 1, &reply), WF_OK, "wf_path_cancel");
  want(reply.waiting, 1, "a frame that waits again");
  want(wf_path_pull(&path, WF_BE, &reply, &frames), WF_OK, "a third pull");
  misuse_outcomes(wf_path_exchanges(&path) - 1);
  want(wf_path_reap(&path, &reply, &taken, NULL, 0), WF_OK, "wf_path_reap");
  want(taken.attempts, 1, "the attempts of a frame that was sent once");
}

/* Ends a batch by the functions of a BlockAck: as lost, which drops its frame. */
static void misuse_batch(void) {
  static const uint8_t body[100];
  const struct wf_packet packet = packet_of(0, body, sizeof body);
  struct wf_taken taken = {0};
  want(wf_path_join_offload(&path, 3, 3, 1, &reply), WF_OK, "wf_path_join_offload");
  want(wf_path_join_offload(&path, 3, 3, 1, &reply), WF_LIVE, "a second join");
  want(wf_path_hold(&path, 3, 0, &reply), WF_OFFLOADED, "a hold of an offloaded station");
  want(wf_path_begin(&path, 3, 0, 64, &reply), WF_NOT_HELD, "an agreement of an offloaded station");
  want(wf_path_free_tid(&path, 3, 0, &reply), WF_NOT_HELD, "wf_path_free_tid of an offloaded station");
  want(wf_path_cease(&path, 3, 0, &reply), WF_NOT_AGREED, "wf_path_cease of an offloaded station");
  want(wf_path_enqueue(&path, 3, &packet, &reply), WF_OK, "wf_path_enqueue");
  want(wf_path_pull(&path, WF_BE, &reply, &frames), WF_OK, "a pull of a batch");
  want(reply.batch && frames.count == 1 && frames.numbers[0] == 0, 1, "the answer to a pull of a batch");
  want(wf_path_done_lost(&path, reply.exchange, 0, &reply), WF_OK, "a batch that is lost");
  want(reply.failed, 1, "a frame that fails");
  want(wf_path_reap(&path, &reply, &taken, NULL, 0), WF_OK, "wf_path_reap");
  want(taken.fate, WF_RETRIES, "the fate of a frame of a lost batch");
  want(wf_path_leave(&path, 3, &reply), WF_OK, "wf_path_leave");
}

/* Ends an agreement while frames of it are on the air, and then while they wait: they are dropped. */
static void misuse_ceases(void) {
  static const uint8_t body[100];
  const struct wf_packet packet = packet_of(0, body, sizeof body);
  struct wf_taken taken = {0};
  uint64_t exchange;
  int i;
  for (i = 0; i < 2; i++) want(wf_path_enqueue(&path, 1, &packet, &reply), WF_OK, "wf_path_enqueue");
  want(wf_path_pull(&path, WF_BE, &reply, &frames), WF_OK, "a pull");
  exchange = reply.exchange;
  want(reply.plain, 0, "an aggregate");
  want(wf_path_cease(&path, 1, 0, &reply), WF_OPEN, "wf_path_cease with an open exchange");
  want((int32_t)reply.count, 1, "the open exchanges of a TID");
  want(wf_path_done_ack(&path, exchange, 1, CHARGE + 1, &reply), WF_BAD_INDEX, "an Ack of two frames");
  want(wf_path_done_lost(&path, exchange, 0, &reply), WF_OK, "wf_path_done_lost");
  want(wf_path_cease(&path, 1, 0, &reply), WF_OK, "wf_path_cease");
  want(reply.count == 2 && reply.kind == WF_KIND_CEASED, 1, "the answer to the end of an agreement");
  for (i = 0; i < 2; i++) {
    want(wf_path_reap(&path, &reply, &taken, NULL, 0), WF_OK, "wf_path_reap");
    want(taken.fate == WF_ENDED && taken.attempts == 1, 1, "a frame that was dropped with its agreement");
  }
}

/* Changes a TID that is in another mode. Station 1 has agreements. */
static void misuse_modes(void) {
  want(wf_path_hold(&path, 1, 8, &reply), WF_BAD_TID, "a hold of TID 8");
  want(wf_path_begin(&path, 1, 8, 0, &reply), WF_BAD_TID, "an agreement of TID 8");
  want(wf_path_free_tid(&path, 1, 8, &reply), WF_BAD_TID, "wf_path_free_tid of TID 8");
  want(wf_path_cease(&path, 1, 8, &reply), WF_BAD_TID, "wf_path_cease of TID 8");
  want(wf_path_hold(&path, 1, 0, &reply), WF_AGREED, "a hold of a TID with an agreement");
  want(wf_path_begin(&path, 1, 0, 64, &reply), WF_NOT_HELD, "a second agreement");
  want(wf_path_free_tid(&path, 1, 0, &reply), WF_NOT_HELD, "wf_path_free_tid of a TID with an agreement");
  misuse_ceases();
  want(wf_path_cease(&path, 1, 0, &reply), WF_NOT_AGREED, "a second wf_path_cease");
  want(wf_path_hold(&path, 1, 0, &reply), WF_TID_HELD, "a hold of a TID that is held");
  want(wf_path_begin(&path, 1, 0, 0, &reply), WF_BAD_WINDOW, "an agreement with a window of 0");
  want(wf_path_begin(&path, 1, 0, 257, &reply), WF_BAD_WINDOW, "an agreement with a window of 257");
  want(wf_path_free_tid(&path, 1, 0, &reply), WF_OK, "wf_path_free_tid");
  want(reply.kind, WF_KIND_FREED, "the answer to wf_path_free_tid");
  want(wf_path_free_tid(&path, 1, 0, &reply), WF_NOT_HELD, "a second wf_path_free_tid");
  want(wf_path_cease(&path, 1, 0, &reply), WF_NOT_AGREED, "wf_path_cease of a plain TID");
  want(wf_path_hold(&path, 1, 0, &reply), WF_OK, "a hold");
  want(reply.start == 2 && reply.kind == WF_KIND_HELD, 1, "the answer to a hold");
  want(wf_path_begin(&path, 1, 0, 256, &reply), WF_OK, "wf_path_begin");
  want(reply.kind, WF_KIND_BEGUN, "the answer to wf_path_begin");
}

/* Ends a plain exchange by an Ack: one that is not open, with too much airtime, with a mark, and twice. */
static void misuse_acks(uint64_t exchange) {
  want(wf_path_done_ack(&path, exchange + 1, 1, CHARGE + 1, &reply), WF_NO_EXCHANGE, "an Ack of no exchange");
  want(wf_path_done_ack(&path, exchange, 1, CHARGE + 1, &reply), WF_BAD_AIR, "too much airtime");
  want(wf_path_unsent(&path, exchange, 0, &reply), WF_OK, "wf_path_unsent");
  want(wf_path_done_ack(&path, exchange, 0, CHARGE + 1, &reply), WF_MARKED, "an Ack after a mark");
  want(wf_path_done_lost(&path, exchange, 0, &reply), WF_OK, "the end of what was not sent");
  want(wf_path_begin(&path, 3, 0, 64, &reply), WF_WAITS, "an agreement while a frame waits");
  want((int32_t)reply.count, 1, "the frames that wait");
  want(wf_path_pull(&path, WF_BE, &reply, &frames), WF_OK, "a second pull");
  want(frames.count == 1 && frames.numbers[0] == 4095, 1, "the number of a frame that waited");
  exchange = reply.exchange;
  want(wf_path_done_ack(&path, exchange, 2, CHARGE, &reply), WF_OK, "wf_path_done_ack");
  want(reply.acked, 1, "an acknowledged frame");
  want(wf_path_done_ack(&path, exchange, 1, 0, &reply), WF_NO_EXCHANGE, "a second Ack");
}

/* A station without agreements, one of whose TIDs gets one while a frame is on the air. */
static void misuse_plain(void) {
  static const uint8_t body[100];
  const struct wf_packet packet = packet_of(0, body, sizeof body);
  struct wf_taken taken = {0};
  uint32_t flying = 7, drained = 7;
  want(wf_path_plain(&path, 3, 4095, 3, 1, &reply), WF_OK, "wf_path_plain");
  want(wf_path_enqueue(&path, 3, &packet, &reply), WF_OK, "wf_path_enqueue");
  want(wf_path_pull(&path, WF_BE, &reply, &frames), WF_OK, "a pull of a plain exchange");
  want(reply.plain == 1 && frames.count == 1, 1, "the answer to a pull of a plain exchange");
  want(wf_path_begin(&path, 3, 0, 64, &reply), WF_NOT_HELD, "an agreement of a plain TID");
  want(wf_path_hold(&path, 3, 0, &reply), WF_OK, "a hold");
  want(reply.start, 0, "the number after 4095");
  want(wf_path_begin(&path, 3, 0, 64, &reply), WF_OPEN, "an agreement while a frame is on the air");
  want((int32_t)reply.count, 1, "the open exchanges of a TID");
  want(wf_path_flying(&path, 3, 0, &flying), WF_OK, "wf_path_flying");
  want(wf_path_drained(&path, 3, 0, &drained), WF_OK, "wf_path_drained");
  want(flying == 1 && drained == 0, 1, "a frame on the air");
  misuse_acks(wf_path_exchanges(&path) - 1);
  want(wf_path_drained(&path, 3, 0, &drained), WF_OK, "wf_path_drained");
  want(drained == 1, 1, "a TID that is drained");
  want(wf_path_begin(&path, 3, 0, 64, &reply), WF_OK, "wf_path_begin");
  want(wf_path_reap(&path, &reply, &taken, NULL, 0), WF_OK, "wf_path_reap");
  want(taken.attempts, 1, "the attempts of a frame that was sent once");
  want(wf_path_leave(&path, 3, &reply), WF_OK, "wf_path_leave");
}

/* Flushes a TID: its frames are dropped, and those of others stay. */
static void misuse_flushes(void) {
  static const uint8_t body[100];
  const struct wf_packet packet = packet_of(0, body, sizeof body);
  struct wf_taken taken = {0};
  want(wf_path_flush(&path, 1, 0, &reply), WF_OK, "a flush of nothing");
  want(reply.count == 0 && reply.kind == WF_KIND_FLUSHED, 1, "the answer to a flush");
  want(wf_path_enqueue(&path, 1, &packet, &reply), WF_OK, "wf_path_enqueue");
  want(wf_path_flush(&path, 1, 1, &reply), WF_OK, "a flush of another TID");
  want(wf_path_reap(&path, &reply, &taken, NULL, 0), WF_NOTHING, "wf_path_reap");
  want(wf_path_flush(&path, 1, 0, &reply), WF_OK, "a flush");
  want((int32_t)reply.count, 1, "the frames of a flush");
  want(wf_path_reap(&path, &reply, &taken, NULL, 0), WF_OK, "wf_path_reap");
  want(taken.fate, WF_FLUSHED, "the fate of a frame that was flushed");
}

static void misuse_exchanges(void) {
  uint8_t out[WF_GREATEST_MPDU] = {0}, same[WF_GREATEST_MPDU] = {0};
  struct wf_sent sent = {0}, none = {0};
  uint64_t id = 7, exchange;
  size_t size = 7;
  want(wf_path_pull(&path, WF_VO, &reply, &frames), WF_IDLE, "nothing to pull");
  want(wf_path_pull(&path, WF_BE, &reply, &frames), WF_OK, "a pull");
  exchange = reply.exchange;
  want(wf_path_pull(&path, WF_BE, &reply, &frames), WF_FULL, "a second pull");
  want(wf_path_leave(&path, 0, &reply), WF_OPEN, "a leave with an open exchange");
  want(wf_path_sent(&path, exchange + 1, &sent), WF_NO_EXCHANGE, "wf_path_sent");
  unchanged(&sent, &none, sizeof sent, "wf_path_sent");
  want(wf_path_frame_id(&path, exchange, 256, &id), WF_BAD_INDEX, "wf_path_frame_id");
  want(wf_path_mpdu(&path, exchange + 1, 0, out, sizeof out, &size), WF_NO_EXCHANGE, "wf_path_mpdu");
  want(wf_path_mpdu(&path, exchange, 256, out, sizeof out, &size), WF_BAD_INDEX, "wf_path_mpdu");
  want(wf_path_frame_tag(&path, exchange, 256, &id), WF_BAD_INDEX, "wf_path_frame_tag");
  want(wf_path_frame_tag(&path, exchange + 1, 0, &id), WF_BAD_INDEX, "a tag of no exchange");
  want(wf_path_header(&path, exchange + 1, 0, out), WF_NO_EXCHANGE, "wf_path_header");
  want(wf_path_header(&path, exchange, 256, out), WF_BAD_INDEX, "wf_path_header");
  want(id == 7 && size == 7, 1, "what no transmission has");
  want(wf_path_mpdu(&path, exchange, 0, out, 25, &size), WF_SMALL_BUFFER, "room for 25 octets");
  want(size == WF_GREATEST_MPDU, 1, "the room that is needed");
  unchanged(out, same, sizeof out, "wf_path_mpdu");
  misuse_answers(exchange);
}

static void misuse_stops(void) {
  want(wf_path_ampdu(&path, 1, 4095, &reply), WF_BAD_AMPDU, "an aggregate of 4,095 octets");
  want(wf_path_ampdu(&path, 1, 6500632, &reply), WF_BAD_AMPDU, "an aggregate of 6,500,632 octets");
  want(wf_path_start(&path, 1, &reply), WF_STARTED, "a start of one that is not stopped");
  want(wf_path_stop(&path, 1, &reply), WF_OK, "a stop");
  want(wf_path_stop(&path, 1, &reply), WF_STOPPED, "a second stop");
  want(wf_path_start(&path, 1, &reply), WF_OK, "a start");
  want(wf_path_pull_limited(&path, WF_VO + 1, 1, 1, &reply, &frames), WF_BAD_CLASS, "a limited pull of class 4");
}

static void misuse_sleepers(void) {
  static const uint8_t body[100];
  const struct wf_packet packet = packet_of(0, body, sizeof body);
  struct wf_share share = {0}, none = {0};
  want(wf_path_wake(&path, 1, &reply), WF_AWAKE, "a second wake");
  want(wf_path_poll(&path, 1, &reply), WF_AWAKE, "a poll of one that is awake");
  want(wf_path_sleep(&path, 1, &reply), WF_OK, "a sleep");
  want(wf_path_sleep(&path, 1, &reply), WF_ASLEEP, "a second sleep");
  want(wf_path_poll(&path, 1, &reply), WF_NOTHING, "a poll of nothing");
  want(wf_path_enqueue(&path, 1, &packet, &reply), WF_OK, "a frame for a sleeper");
  want(wf_path_enqueue(&path, 1, &packet, &reply), WF_OK, "another");
  want(wf_path_enqueue(&path, 1, &packet, &reply), WF_SLEEPING, "a third");
  want(wf_path_poll(&path, 1, &reply), WF_OK, "a poll");
  want(wf_path_poll(&path, 1, &reply), WF_POLLED, "a second poll");
  want(wf_path_apsd(&path, 1, 0, 0, &reply), WF_ASLEEP, "the classes of a sleeper");
  want(wf_path_trigger(&path, 1, &reply), WF_NOTHING, "a trigger without classes");
  want(wf_path_share(&path, 3, WF_BE, &share), WF_NO_STATION, "wf_path_share");
  unchanged(&share, &none, sizeof share, "wf_path_share");
  want(wf_path_live(&path, 3), 0, "a station that is not live");
  want(wf_path_live(&path, 65535), 0, "a station that there is not");
  want(wf_path_in_service(&path, 3), 0, "a service period of a station that is not live");
  want(wf_path_in_service(&path, 65535), 0, "a service period of a station that there is not");
}

/* Reads queues that do not exist, and the octets of no TID. */
static void misuse_queues(void) {
  const struct wf_settings settings = some_settings();
  const uint32_t queues = settings.flows + 8 * settings.stations;
  struct wf_codel codel, before;
  uint64_t octets = 7;
  memset(&codel, 7, sizeof codel);
  before = codel;
  want(wf_path_octets(&path, 3, 8, &octets), WF_BAD_TID, "wf_path_octets");
  want(wf_path_octets(&path, 3, 7, &octets), WF_NO_STATION, "wf_path_octets");
  want(wf_path_octets(&path, 65535, 255, &octets), WF_BAD_TID, "wf_path_octets");
  want(octets == 7, 1, "the octets of no TID");
  want(wf_path_codel(&path, queues, &codel), WF_BAD_INDEX, "wf_path_codel");
  want(wf_path_codel(&path, 0xffffffff, &codel), WF_BAD_INDEX, "wf_path_codel");
  unchanged(&codel, &before, sizeof codel, "wf_path_codel");
  want(wf_path_octets(&path, 0, 7, &octets), WF_OK, "wf_path_octets");
  want(wf_path_codel(&path, queues - 1, &codel), WF_OK, "the last queue");
  memset(&before, 0, sizeof before);
  unchanged(&codel, &before, sizeof codel, "a queue from which nothing was taken");
  want(octets == 0, 1, "the octets of a new station");
}

/* Reads counts of TIDs and stations that do not exist. */
static void misuse_counts(void) {
  uint32_t count = 7, flying = 7, drained = 7;
  want(wf_path_queued(&path, 0, 8, &count), WF_BAD_TID, "wf_path_queued");
  want(wf_path_waiting(&path, 0, 8, &count), WF_BAD_TID, "wf_path_waiting");
  want(wf_path_queued(&path, 3, 8, &count), WF_BAD_TID, "wf_path_queued");
  want(wf_path_queued(&path, 3, 0, &count), WF_NO_STATION, "wf_path_queued");
  want(wf_path_waiting(&path, 65535, 7, &count), WF_NO_STATION, "wf_path_waiting");
  want(wf_path_flying(&path, 3, 8, &flying), WF_BAD_TID, "wf_path_flying");
  want(wf_path_flying(&path, 3, 7, &flying), WF_NO_STATION, "wf_path_flying");
  want(wf_path_flying(&path, 65535, 255, &flying), WF_BAD_TID, "wf_path_flying");
  want(wf_path_drained(&path, 3, 8, &drained), WF_BAD_TID, "wf_path_drained");
  want(wf_path_drained(&path, 3, 7, &drained), WF_NO_STATION, "wf_path_drained");
  want(wf_path_drained(&path, 65535, 255, &drained), WF_BAD_TID, "wf_path_drained");
  want(count == 7 && flying == 7 && drained == 7, 1, "a count of no TID");
  want(wf_path_queued(&path, 0, 7, &count), WF_OK, "wf_path_queued");
  want(count == 0, 1, "the frames of a new station");
  want(wf_path_can_pull(&path, WF_BE), 0, "a pull that would be refused");
  want(wf_path_listed(&path, 65535, WF_BE), 0, "the list of a station that there is not");
  want(wf_path_has_small_counts(&path), 1, "the counts of a new path");
}

/* A second path in a full handle, even with settings that are out of their ranges. */
static void misuse_full_handle(void) {
  struct wf_path before = path;
  struct wf_settings settings = some_settings();
  want(wf_path_make(&path, &settings), WF_IN_USE, "a second path");
  settings.stations = 0;
  want(wf_path_make(&path, &settings), WF_IN_USE, "a second path of no station");
  unchanged(&path, &before, sizeof path, "wf_path_make");
}

/* A path of four stations, three of them live. */
static void misuse_path(void) {
  struct wf_settings settings = some_settings();
  uint16_t station;
  want(wf_path_make(&path, &settings), WF_OK, "wf_path_make");
  misuse_full_handle();
  for (station = 0; station < 3; station++) {
    want(wf_path_join(&path, station, 64, 0, 3, 1, &reply), WF_OK, "wf_path_join");
  }
  misuse_stations();
  misuse_counts();
  misuse_queues();
  misuse_addresses();
  misuse_bsses();
  misuse_groups();
  misuse_services();
  misuse_joins();
  misuse_rates();
  misuse_clock();
  misuse_airtime();
  misuse_frames();
  misuse_reaps();
  misuse_bare();
  misuse_classes();
  misuse_bursts();
  misuse_exchanges();
  wf_path_free(&path);
  want(path.at == NULL, 1, "a handle that holds nothing");
  wf_path_free(&path);
  want(path.at == NULL, 1, "an empty handle that was freed");
  want(wf_path_make(&path, &settings), WF_OK, "a path in the same handle");
  want(wf_path_join(&path, 1, 64, 0, 3, 1, &reply), WF_OK, "wf_path_join");
  misuse_stops();
  misuse_ends();
  misuse_flushes();
  misuse_batch();
  misuse_plain();
  misuse_sleepers();
  wf_path_free(&path);
  want(wf_path_make(&path, &settings), WF_OK, "a path in the same handle");
  want(wf_path_join(&path, 1, 64, 0, 3, 1, &reply), WF_OK, "wf_path_join");
  misuse_modes();
  wf_path_free(&path);
  misuse_legacy();
}

/* A cell with room for eight calls. */
static void misuse_cell(void) {
  static uint8_t body[WF_GREATEST_BODY];
  struct wf_settings settings = some_settings();
  struct wf_cell cell = {0};
  struct wf_call call = {0}, none = {0};
  struct wf_reply before;
  struct wf_taken taken = {0};
  struct wf_packet packet = packet_of(0, body, 0);
  struct wf_bare bare = {0};
  size_t made = 7;
  uint32_t caller = 7;
  want(wf_cell_make(&cell, &settings), WF_OK, "wf_cell_make");
  want(wf_cell_make(&cell, &settings), WF_IN_USE, "a second cell");
  before = reply;
  call.kind = WF_CALL_ENQUEUE;
  want(wf_cell_ask(&cell, 0, &call, &reply), WF_BAD_CALL, "a frame without its body");
  call.kind = WF_CALL_REAP;
  want(wf_cell_ask(&cell, 0, &call, &reply), WF_BAD_CALL, "a reap without its struct");
  call.kind = WF_CALL_BSS + 1;
  want(wf_cell_ask(&cell, 0, &call, &reply), WF_BAD_CALL, "a call of no kind");
  call.kind = WF_CALL_GROUP;
  want(wf_cell_ask(&cell, 0, &call, &reply), WF_BAD_CALL, "a group frame without octets");
  call.length = WF_GREATEST_BODY + 1;
  want(wf_cell_ask(&cell, 0, &call, &reply), WF_BAD_CALL, "a group frame that is too long");
  call.length = 0;
  call.kind = WF_CALL_RATE;
  call.form = WF_FORM_DSSS + 1;
  want(wf_cell_ask(&cell, 0, &call, &reply), WF_BAD_CALL, "a rate of no format");
  call.kind = WF_CALL_PULL;
  call.class_ = 4;
  want(wf_cell_ask(&cell, 0, &call, &reply), WF_BAD_CALL, "a pull of class 4");
  call.kind = WF_CALL_RX;
  want(wf_cell_ask(&cell, 0, &call, &reply), WF_BAD_CALL, "airtime of class 4");
  want(wf_cell_burst(&cell, 0, &call, 1, &reply, 1, &made), WF_BAD_CALL, "a burst with class 4");
  want(wf_cell_burst(&cell, 0, &call, 1, &reply, 0, &made), WF_SMALL_BUFFER, "a burst without room for its reply");
  want(wf_cell_enqueue_bare(&cell, 0, 0, &bare, &reply), WF_BAD_LENGTH, "a length of 0");
  call.kind = WF_CALL_ENQUEUE;
  want(wf_cell_burst(&cell, 0, &call, 1, &reply, 1, &made), WF_BAD_LENGTH, "a burst with a length of 0");
  want(made == 0, 1, "no call");
  want(wf_cell_enqueue(&cell, 0, 0, &packet, &reply), WF_BAD_LENGTH, "a body of no octet");
  want(wf_cell_reap(&cell, 0, &reply, &taken, body, 1), WF_SMALL_BUFFER, "room for one octet");
  unchanged(&reply, &before, sizeof reply, "a call of a cell that is none");
  want(wf_cell_entry(&cell, 0, &caller, &none), WF_BAD_INDEX, "an entry of an empty history");
  want(caller == 7 && wf_cell_len(&cell) == 0, 1, "an empty history");
  call.kind = WF_CALL_TICK;
  while (wf_cell_room(&cell)) want(wf_cell_ask(&cell, 0, &call, &reply), WF_OK, "a tick");
  want(wf_cell_ask(&cell, 0, &call, &reply), WF_HISTORY_FULL, "a call too many");
  made = 7;
  want(wf_cell_burst(&cell, 0, &call, 1, &reply, 1, &made), WF_HISTORY_FULL, "a burst too many");
  want(made == 0, 1, "no call");
  bare.length = 100;
  want(wf_cell_enqueue_bare(&cell, 0, 0, &bare, &reply), WF_HISTORY_FULL, "a frame without octets too many");
  packet.length = 100;
  want(wf_cell_enqueue(&cell, 0, 0, &packet, &reply), WF_HISTORY_FULL, "a frame too many");
  want(wf_cell_reap(&cell, 0, &reply, &taken, NULL, 0), WF_HISTORY_FULL, "a reap too many");
  wf_cell_free(&cell);
  wf_cell_free(&cell);
}

/* Numbers without a meaning, and those that got one last. */
static void misuse_names(void) {
  static const int32_t NONE[] = {-1, 50, 59, 100, WF_BAD_SETTING + PLACES + 1, INT32_MAX, INT32_MIN};
  static const int32_t SOME[] = {WF_OFFLOADED, WF_AGREED, WF_TID_HELD, WF_NOT_HELD, WF_NOT_AGREED, WF_WAITS, WF_LEGACY, WF_BAD_AID};
  static const char *const WORDS[] = {"offloaded", "agreed", "held", "not-held", "not-agreed", "waits", "legacy", "bad-aid"};
  size_t i;
  for (i = 0; i < sizeof NONE / sizeof *NONE; i++) {
    char name[WF_NAME] = {0};
    wf_code_name(NONE[i], name);
    want(strcmp(name, "?"), 0, "the name of no code");
  }
  for (i = 0; i < sizeof SOME / sizeof *SOME; i++) {
    char name[WF_NAME] = {0};
    wf_code_name(SOME[i], name);
    want(strcmp(name, WORDS[i]), 0, WORDS[i]);
  }
}

int main(void) {
  misuse_settings();
  use_device_settings();
  misuse_path();
  misuse_cell();
  misuse_names();
  printf("misuse: asked %d times, %d other codes\n", asked, failed);
  return failed != 0;
}
