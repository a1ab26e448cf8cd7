/*
 * A path of libwf for C++17: a `wf::Path` owns one and frees it. `./wf install` puts this file at
 * include/wf/path.hpp.
 *
 * Each function of wf.h on a path is a method here, with the same arguments without the handle and the same
 * result; the comments of wf.h apply. The airtime of an end is the last argument, and may be left out. A path
 * may be moved but not copied. After a move the old path is empty: it may be destroyed, assigned to and
 * tested by `holds`, and no other method may be called on it. A path may move from thread to thread. Two
 * methods of one path must not run at the same time, unless both are const.
 */
#ifndef WF_PATH_HPP
#define WF_PATH_HPP

#include <cstddef>
#include <cstdint>
#include <optional>
#include <string>
#include <utility>

#include "wf.h"

namespace wf {

/* The standard settings. */
inline wf_settings standard_settings() {
  wf_settings settings{};
  wf_settings_standard(&settings);
  return settings;
}

/* The words for numbers (wf_code_name and so on). */
inline std::string code_name(std::int32_t code) {
  char name[WF_NAME] = {};
  wf_code_name(code, name);
  return name;
}
inline std::string kind_name(std::int32_t kind) {
  char name[WF_NAME] = {};
  wf_kind_name(kind, name);
  return name;
}
inline std::string fate_name(std::int32_t fate) {
  char name[WF_NAME] = {};
  wf_fate_name(fate, name);
  return name;
}
inline std::string setting_name(std::int32_t place) {
  char name[WF_NAME] = {};
  wf_setting_name(place, name);
  return name;
}

class Path {
 public:
  /* Makes a path with these settings. Returns none if that fails; `code` is what wf_path_make returned. */
  static std::optional<Path> make(const wf_settings &settings, std::int32_t &code) {
    Path made;
    code = wf_path_make(&made.handle_, &settings);
    made.holds_ = code == WF_OK;
    if (!made.holds_) return std::nullopt;
    return made;
  }
  static std::optional<Path> make(const wf_settings &settings = standard_settings()) {
    std::int32_t code = WF_OK;
    return make(settings, code);
  }

  Path(const Path &) = delete;
  Path &operator=(const Path &) = delete;

  /* Moves the bits of the handle, and zeroes the old handle. */
  Path(Path &&other) noexcept
      : handle_(std::exchange(other.handle_, wf_path{})), holds_(std::exchange(other.holds_, false)) {}
  Path &operator=(Path &&other) noexcept {
    Path moved(std::move(other));
    std::swap(handle_, moved.handle_);
    std::swap(holds_, moved.holds_);
    return *this;
  }

  ~Path() {
    if (holds_) wf_path_free(&handle_);
  }

  /* Returns whether this holds a path: false after it was moved from. */
  bool holds() const { return holds_; }

  /* The addresses of the access point and of the stations. */

  [[nodiscard]] std::int32_t set_base(const std::uint8_t (&address)[6]) { return wf_path_set_base(&handle_, address); }
  [[nodiscard]] std::int32_t set_address(std::uint16_t station, const std::uint8_t (&address)[6]) {
    return wf_path_set_address(&handle_, station, address);
  }
  [[nodiscard]] std::int32_t set_bss(std::uint8_t bss, const std::uint8_t (&address)[6]) {
    return wf_path_set_bss(&handle_, bss, address);
  }
  [[nodiscard]] std::int32_t set_aid(std::uint16_t station, std::uint16_t aid) {
    return wf_path_set_aid(&handle_, station, aid);
  }
  void base(std::uint8_t (&out)[6]) const { wf_path_base(&handle_, out); }
  [[nodiscard]] std::int32_t address(std::uint16_t station, std::uint8_t (&out)[6]) const {
    return wf_path_address(&handle_, station, out);
  }

  /* The calls of the machine. Each writes its answer to `reply`, and returns WF_OK or its refusal. */

  [[nodiscard]] std::int32_t join(std::uint16_t station, std::uint16_t window, std::uint16_t start,
                                  std::uint8_t exponent, std::uint8_t weight, wf_reply &reply) {
    return wf_path_join(&handle_, station, window, start, exponent, weight, &reply);
  }
  [[nodiscard]] std::int32_t join_offload(std::uint16_t station, std::uint8_t exponent, std::uint8_t weight,
                                          wf_reply &reply) {
    return wf_path_join_offload(&handle_, station, exponent, weight, &reply);
  }
  [[nodiscard]] std::int32_t plain(std::uint16_t station, std::uint16_t start, std::uint8_t exponent,
                                   std::uint8_t weight, wf_reply &reply) {
    return wf_path_plain(&handle_, station, start, exponent, weight, &reply);
  }
  [[nodiscard]] std::int32_t hold(std::uint16_t station, std::uint8_t tid, wf_reply &reply) {
    return wf_path_hold(&handle_, station, tid, &reply);
  }
  [[nodiscard]] std::int32_t begin(std::uint16_t station, std::uint8_t tid, std::uint16_t window, wf_reply &reply) {
    return wf_path_begin(&handle_, station, tid, window, &reply);
  }
  [[nodiscard]] std::int32_t free_tid(std::uint16_t station, std::uint8_t tid, wf_reply &reply) {
    return wf_path_free_tid(&handle_, station, tid, &reply);
  }
  [[nodiscard]] std::int32_t cease(std::uint16_t station, std::uint8_t tid, wf_reply &reply) {
    return wf_path_cease(&handle_, station, tid, &reply);
  }
  [[nodiscard]] std::int32_t weight(std::uint16_t station, std::uint8_t weight, wf_reply &reply) {
    return wf_path_weight(&handle_, station, weight, &reply);
  }
  [[nodiscard]] std::int32_t leave(std::uint16_t station, wf_reply &reply) {
    return wf_path_leave(&handle_, station, &reply);
  }
  [[nodiscard]] std::int32_t rate(std::uint16_t station, std::uint8_t mcs, std::uint8_t mhz, bool short_guard,
                                  wf_reply &reply) {
    return wf_path_rate_ht(&handle_, station, mcs, mhz, short_guard, &reply);
  }
  [[nodiscard]] std::int32_t rate_vht(std::uint16_t station, std::uint8_t mcs, std::uint8_t mhz, bool short_guard,
                                      std::uint8_t streams, wf_reply &reply) {
    return wf_path_rate_vht(&handle_, station, mcs, mhz, short_guard, streams, &reply);
  }
  [[nodiscard]] std::int32_t rate_he(std::uint16_t station, std::uint8_t mcs, std::uint8_t mhz, std::uint16_t guard,
                                     std::uint8_t streams, wf_reply &reply) {
    return wf_path_rate_he(&handle_, station, mcs, mhz, guard, streams, &reply);
  }
  [[nodiscard]] std::int32_t rate_ofdm(std::uint16_t station, std::uint8_t mbps, wf_reply &reply) {
    return wf_path_rate_ofdm(&handle_, station, mbps, &reply);
  }
  [[nodiscard]] std::int32_t rate_dsss(std::uint16_t station, std::uint8_t half_mbps, wf_reply &reply) {
    return wf_path_rate_dsss(&handle_, station, half_mbps, &reply);
  }
  [[nodiscard]] std::int32_t tick(std::uint32_t by, wf_reply &reply) {
    return wf_path_tick(&handle_, by, &reply);
  }
  [[nodiscard]] std::int32_t advance(std::uint64_t now, wf_reply &reply) {
    return wf_path_advance(&handle_, now, &reply);
  }
  [[nodiscard]] std::int32_t sleep(std::uint16_t station, wf_reply &reply) {
    return wf_path_sleep(&handle_, station, &reply);
  }
  [[nodiscard]] std::int32_t wake(std::uint16_t station, wf_reply &reply) {
    return wf_path_wake(&handle_, station, &reply);
  }
  [[nodiscard]] std::int32_t poll(std::uint16_t station, wf_reply &reply) {
    return wf_path_poll(&handle_, station, &reply);
  }
  [[nodiscard]] std::int32_t ampdu(std::uint16_t station, std::uint32_t octets, wf_reply &reply) {
    return wf_path_ampdu(&handle_, station, octets, &reply);
  }
  [[nodiscard]] std::int32_t stop(std::uint16_t station, wf_reply &reply) {
    return wf_path_stop(&handle_, station, &reply);
  }
  [[nodiscard]] std::int32_t start(std::uint16_t station, wf_reply &reply) {
    return wf_path_start(&handle_, station, &reply);
  }
  [[nodiscard]] std::int32_t flush(std::uint16_t station, std::uint8_t tid, wf_reply &reply) {
    return wf_path_flush(&handle_, station, tid, &reply);
  }
  [[nodiscard]] std::int32_t rx(std::uint16_t station, wf_class access, std::uint32_t air,
                                     wf_reply &reply) {
    return wf_path_rx(&handle_, station, static_cast<std::uint8_t>(access), air, &reply);
  }
  [[nodiscard]] std::int32_t enqueue(std::uint16_t station, const wf_packet &packet, wf_reply &reply) {
    return wf_path_enqueue(&handle_, station, &packet, &reply);
  }
  [[nodiscard]] std::int32_t reserve(std::uint32_t frames) { return wf_path_reserve(&handle_, frames); }
  [[nodiscard]] std::int32_t enqueue_bare(std::uint16_t station, const wf_bare &packet, wf_reply &reply) {
    return wf_path_enqueue_bare(&handle_, station, &packet, &reply);
  }
  [[nodiscard]] std::int32_t burst(const wf_call *calls, std::size_t count, wf_reply *replies, std::size_t room,
                                   std::size_t &made) {
    return wf_path_burst(&handle_, calls, count, replies, room, &made);
  }
  [[nodiscard]] std::int32_t pull(wf_class access, wf_reply &reply, wf_frames &frames) {
    return wf_path_pull(&handle_, static_cast<std::uint8_t>(access), &reply, &frames);
  }
  [[nodiscard]] std::int32_t pull_limited(wf_class access, std::uint32_t most, std::uint32_t air, wf_reply &reply,
                                          wf_frames &frames) {
    return wf_path_pull_limited(&handle_, static_cast<std::uint8_t>(access), most, air, &reply, &frames);
  }
  [[nodiscard]] std::int32_t reap(wf_reply &reply, wf_taken &taken, std::uint8_t *body, std::size_t room) {
    return wf_path_reap(&handle_, &reply, &taken, body, room);
  }
  /* The same without the body. */
  [[nodiscard]] std::int32_t reap(wf_reply &reply, wf_taken &taken) {
    return wf_path_reap(&handle_, &reply, &taken, nullptr, 0);
  }

  /* Service periods. */

  [[nodiscard]] std::int32_t apsd(std::uint16_t station, std::uint8_t classes, std::uint8_t most, wf_reply &reply) {
    return wf_path_apsd(&handle_, station, classes, most, &reply);
  }
  [[nodiscard]] std::int32_t trigger(std::uint16_t station, wf_reply &reply) {
    return wf_path_trigger(&handle_, station, &reply);
  }
  [[nodiscard]] std::int32_t end_service(std::uint16_t station, wf_reply &reply) {
    return wf_path_end_service(&handle_, station, &reply);
  }

  /* BSSs, and the group frames and beacons of each. */

  [[nodiscard]] std::int32_t set_station_bss(std::uint16_t station, std::uint8_t bss, wf_reply &reply) {
    return wf_path_set_station_bss(&handle_, station, bss, &reply);
  }
  [[nodiscard]] std::int32_t group(std::uint8_t bss, const std::uint8_t (&to)[6], std::uint16_t length, std::uint64_t tag,
                                   wf_reply &reply) {
    return wf_path_group(&handle_, bss, to, length, tag, &reply);
  }
  [[nodiscard]] std::int32_t beacon(std::uint8_t bss, wf_reply &reply) { return wf_path_beacon(&handle_, bss, &reply); }
  [[nodiscard]] std::int32_t group_pull(std::uint8_t bss, wf_group &frame, wf_reply &reply) {
    return wf_path_group_pull(&handle_, bss, &frame, &reply);
  }
  [[nodiscard]] std::int32_t group_header(std::uint8_t bss, const std::uint8_t (&source)[6],
                                          std::uint8_t (&out)[WF_GROUP_HEADER]) const {
    return wf_path_group_header(&handle_, bss, source, out);
  }
  [[nodiscard]] std::int32_t group_done(std::uint8_t bss, wf_group &frame, wf_reply &reply) {
    return wf_path_group_done(&handle_, bss, &frame, &reply);
  }
  [[nodiscard]] std::int32_t group_counts(std::uint8_t bss, wf_group_counts &counts) const {
    return wf_path_group_counts(&handle_, bss, &counts);
  }

  /* An open exchange, and its end. */

  [[nodiscard]] std::int32_t sent(std::uint64_t exchange, wf_sent &out) const {
    return wf_path_sent(&handle_, exchange, &out);
  }
  [[nodiscard]] std::int32_t frame_id(std::uint64_t exchange, std::uint16_t index, std::uint64_t &id) const {
    return wf_path_frame_id(&handle_, exchange, index, &id);
  }
  [[nodiscard]] std::int32_t frame_tag(std::uint64_t exchange, std::uint16_t index, std::uint64_t &tag) const {
    return wf_path_frame_tag(&handle_, exchange, index, &tag);
  }
  [[nodiscard]] std::int32_t header(std::uint64_t exchange, std::uint16_t index, std::uint8_t (&out)[WF_HEADER]) const {
    return wf_path_header(&handle_, exchange, index, out);
  }
  [[nodiscard]] std::int32_t mpdu(std::uint64_t exchange, std::uint16_t index, std::uint8_t *out,
                                  std::size_t room, std::size_t &size) const {
    return wf_path_mpdu(&handle_, exchange, index, out, room, &size);
  }

  [[nodiscard]] std::int32_t unsent(std::uint64_t exchange, std::uint16_t index, wf_reply &reply) {
    return wf_path_unsent(&handle_, exchange, index, &reply);
  }
  [[nodiscard]] std::int32_t give_up(std::uint64_t exchange, std::uint16_t index, wf_reply &reply) {
    return wf_path_give_up(&handle_, exchange, index, &reply);
  }
  [[nodiscard]] std::int32_t cancel(std::uint64_t exchange, wf_reply &reply) {
    return wf_path_cancel(&handle_, exchange, &reply);
  }

  /* If the airtime is left out, it is 0, and the computed airtime is charged. */

  [[nodiscard]] std::int32_t done_lost(std::uint64_t exchange, wf_reply &reply, std::uint32_t air = 0) {
    return wf_path_done_lost(&handle_, exchange, air, &reply);
  }
  [[nodiscard]] std::int32_t done_ack(std::uint64_t exchange, bool acked, wf_reply &reply, std::uint32_t air = 0) {
    return wf_path_done_ack(&handle_, exchange, acked, air, &reply);
  }
  [[nodiscard]] std::int32_t done_bits(std::uint64_t exchange, std::uint16_t start,
                                       const std::uint8_t (&bits)[32], wf_reply &reply,
                                       std::uint32_t air = 0) {
    return wf_path_done_bits(&handle_, exchange, start, bits, air, &reply);
  }
  [[nodiscard]] std::int32_t done_octets(std::uint64_t exchange, const std::uint8_t *octets,
                                         std::size_t length, wf_reply &reply, std::uint32_t air = 0) {
    return wf_path_done_octets(&handle_, exchange, octets, length, air, &reply);
  }
  [[nodiscard]] std::int32_t done_each(std::uint64_t exchange, const std::uint8_t *outcomes, std::size_t count,
                                       wf_reply &reply, std::uint32_t air = 0) {
    return wf_path_done_each(&handle_, exchange, outcomes, count, air, &reply);
  }

  /* Reading a path. */

  std::uint64_t now() const { return wf_path_now(&handle_); }
  std::uint64_t exchanges() const { return wf_path_exchanges(&handle_); }
  std::uint32_t open_count() const { return wf_path_open_count(&handle_); }
  bool live(std::uint16_t station) const { return wf_path_live(&handle_, station) != 0; }
  bool in_service(std::uint16_t station) const { return wf_path_in_service(&handle_, station) != 0; }
  wf_tally tally() const {
    wf_tally told{};
    wf_path_tally(&handle_, &told);
    return told;
  }
  [[nodiscard]] std::int32_t share(std::uint16_t station, wf_class access, wf_share &out) const {
    return wf_path_share(&handle_, station, static_cast<std::uint8_t>(access), &out);
  }
  [[nodiscard]] std::int32_t pending(std::uint16_t station, wf_class access, std::uint32_t &air) const {
    return wf_path_pending(&handle_, station, static_cast<std::uint8_t>(access), &air);
  }
  bool can_pull(wf_class access) const {
    return wf_path_can_pull(&handle_, static_cast<std::uint8_t>(access)) != 0;
  }
  std::int32_t listed(std::uint16_t station, wf_class access) const {
    return wf_path_listed(&handle_, station, static_cast<std::uint8_t>(access));
  }
  bool has_small_counts() const { return wf_path_has_small_counts(&handle_) != 0; }
  [[nodiscard]] std::int32_t queued(std::uint16_t station, std::uint8_t tid, std::uint32_t &count) const {
    return wf_path_queued(&handle_, station, tid, &count);
  }
  [[nodiscard]] std::int32_t octets(std::uint16_t station, std::uint8_t tid, std::uint64_t &out) const {
    return wf_path_octets(&handle_, station, tid, &out);
  }
  [[nodiscard]] std::int32_t codel(std::uint32_t queue, wf_codel &out) const {
    return wf_path_codel(&handle_, queue, &out);
  }
  [[nodiscard]] std::int32_t waiting(std::uint16_t station, std::uint8_t tid, std::uint32_t &count) const {
    return wf_path_waiting(&handle_, station, tid, &count);
  }
  [[nodiscard]] std::int32_t flying(std::uint16_t station, std::uint8_t tid, std::uint32_t &count) const {
    return wf_path_flying(&handle_, station, tid, &count);
  }
  [[nodiscard]] std::int32_t drained(std::uint16_t station, std::uint8_t tid, std::uint32_t &out) const {
    return wf_path_drained(&handle_, station, tid, &out);
  }
  std::size_t tim(std::uint8_t bss, std::uint8_t count, std::uint8_t period, bool group, std::uint8_t (&out)[256]) const {
    return wf_path_tim(&handle_, bss, count, period, group, out);
  }

 private:
  Path() = default;

  wf_path handle_{};
  bool holds_ = false;
};

}  // namespace wf

#endif
