/*
 * Two stations join through the class of path.hpp, get a rate each, and get frames. One frame is lost on the
 * air and sent again. Then a station joins without agreements; one begins and ends. The path is freed at the
 * end of main.
 *
 *   c++ -std=c++17 -Iinclude examples/c/path.cpp -Lcrates/wf_c/out -lwf
 */
#include <array>
#include <cstdint>
#include <cstdio>
#include <cstdlib>
#include <utility>

#include "path.hpp"

namespace {

/* Ends the program if a call was refused that should not be. */
void want(std::int32_t code, const char *call) {
  if (code == WF_OK) return;
  std::printf("%s: code %d, %s\n", call, static_cast<int>(code), wf::code_name(code).c_str());
  std::exit(1);
}

/* Enqueues some frames of 1000 octets for a station. */
void give_frames(wf::Path &path, std::uint16_t station, int frames) {
  static const std::array<std::uint8_t, 1000> body{0xaa, 0xaa, 0x03};
  wf_reply reply{};
  wf_packet packet{};
  packet.body = body.data();
  packet.length = body.size();
  packet.flow = station;
  for (int i = 0; i < frames; i++) {
    want(path.enqueue(station, packet, reply), "enqueue");
    std::printf("station %d: frame %d is accepted\n", static_cast<int>(station), static_cast<int>(reply.id));
  }
}

/* Makes a station join, sets its rate, and enqueues frames for it. */
void open_station(wf::Path &path, std::uint16_t station, std::uint8_t mcs, int frames) {
  wf_reply reply{};
  want(path.join(station, 64, 0, 3, 1, reply), "join");
  want(path.rate(station, mcs, 20, false, reply), "rate");
  give_frames(path, station, frames);
}

/* Sets the address of the access point. */
void name_access_point(wf::Path &path) {
  const std::uint8_t address[6] = {0x00, 0x00, 0x5e, 0x00, 0x53, 0x00};
  std::uint8_t told[6] = {};
  want(path.set_base(address), "set_base");
  path.base(told);
  std::printf("the access point has the address %02x:%02x:%02x:%02x:%02x:%02x\n", told[0], told[1], told[2], told[3], told[4],
              told[5]);
}

/* The bits of a BlockAck to an exchange that shows all frames except the one with this id. */
void answer_bits(const wf_frames &frames, std::uint64_t lost, std::uint8_t (&bits)[32]) {
  for (std::uint16_t i = 0; i < frames.count; i++) {
    const unsigned offset = (frames.numbers[i] - frames.numbers[0]) & 4095u;
    if (frames.ids[i] != lost) bits[offset / 8] |= static_cast<std::uint8_t>(1u << offset % 8);
  }
}

/* Pulls an exchange, ends it by bits, and moves the clock on by its airtime. Returns false if nothing is left
 * to send. */
bool exchange_once(wf::Path &path, std::uint64_t lost) {
  wf_reply reply{};
  static wf_frames frames;
  if (path.pull(WF_BE, reply, frames) != WF_OK) return false;
  const std::uint64_t exchange = reply.exchange;
  const std::uint32_t air = reply.air;
  std::printf("exchange %d: station %d, %d frames, %d microseconds", static_cast<int>(exchange),
              static_cast<int>(reply.station), static_cast<int>(frames.count), static_cast<int>(air));
  std::uint8_t bits[32] = {};
  answer_bits(frames, lost, bits);
  want(path.done_bits(exchange, frames.numbers[0], bits, reply), "done");
  std::printf(": %d acknowledged, %d wait again\n", static_cast<int>(reply.acked),
              static_cast<int>(reply.waiting));
  want(path.advance(path.now() + air, reply), "advance");
  return true;
}

/* Reaps the finished frames. */
void reap_all(wf::Path &path) {
  wf_reply reply{};
  wf_taken taken{};
  std::uint8_t body[WF_GREATEST_BODY] = {};
  while (path.reap(reply, taken, body, sizeof body) == WF_OK) {
    std::printf("reaped: frame %d of station %d, %d octets, %s\n", static_cast<int>(reply.id),
                static_cast<int>(taken.station), static_cast<int>(taken.length),
                wf::fate_name(taken.fate).c_str());
  }
}

/* A station joins without agreements. Its first frame goes alone. Then an agreement begins, and ends while the
 * other two frames wait to be sent again, so they are dropped. */
void use_agreement(wf::Path &path, std::uint16_t station) {
  wf_reply reply{};
  static wf_frames frames;
  std::uint32_t drained = 0;
  want(path.plain(station, 4095, 3, 1, reply), "plain");
  give_frames(path, station, 3);
  want(path.pull(WF_BE, reply, frames), "pull");
  const std::uint64_t alone = reply.exchange;
  want(path.hold(station, 0, reply), "hold");
  std::printf("exchange %d: number %d goes alone; an agreement may begin with %d\n", static_cast<int>(alone),
              static_cast<int>(frames.numbers[0]), static_cast<int>(reply.start));
  want(path.done_ack(alone, true, reply), "done_ack");
  want(path.drained(station, 0, drained), "drained");
  want(path.begin(station, 0, 64, reply), "begin");
  want(path.pull(WF_BE, reply, frames), "pull");
  std::printf("drained: %d; exchange %d: %d frames from number %d on\n", static_cast<int>(drained),
              static_cast<int>(reply.exchange), static_cast<int>(frames.count), static_cast<int>(frames.numbers[0]));
  want(path.done_lost(reply.exchange, reply), "done_lost");
  want(path.cease(station, 0, reply), "cease");
  std::printf("the agreement ended: %d frames are dropped\n", static_cast<int>(reply.count));
  want(path.free_tid(station, 0, reply), "free_tid");
  reap_all(path);
}

}  // namespace

int main() {
  wf_settings settings = wf::standard_settings();
  settings.stations = 0;
  std::int32_t code = WF_OK;
  if (wf::Path::make(settings, code)) return 1;
  std::printf("no stations: code %d, the setting %s\n", static_cast<int>(code),
              wf::setting_name(code - WF_BAD_SETTING).c_str());

  settings.stations = 3;
  std::optional<wf::Path> made = wf::Path::make(settings, code);
  if (!made) return 1;
  wf::Path path = std::move(*made);
  std::printf("moved: the old one %s, the new one %s\n", made->holds() ? "holds" : "is empty",
              path.holds() ? "holds" : "is empty");

  name_access_point(path);
  open_station(path, 0, 7, 3);
  open_station(path, 1, 0, 2);
  std::uint64_t lost = 1;
  while (exchange_once(path, lost)) {
    lost = UINT64_MAX;
    reap_all(path);
  }
  use_agreement(path, 2);
  const wf_tally tally = path.tally();
  std::printf("%d exchanges in %d microseconds: %d frames accepted, %d acknowledged, %d ended\n",
              static_cast<int>(path.exchanges()), static_cast<int>(path.now()), static_cast<int>(tally.accepted),
              static_cast<int>(tally.acked), static_cast<int>(tally.ended));
  return 0;
}
