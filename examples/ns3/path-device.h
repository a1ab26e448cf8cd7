/*
 * A device of ns-3 whose transmit queue is a path of the library, on ns-3's own channel.
 *
 * The access point's device has a radio of ns-3 without ns-3's MAC. It sends one exchange at a time: it waits
 * for AIFS and a backoff, sends a PSDU, and hears the station's BlockAck or gives up. It passes the airtime
 * of this on the channel to the path: from the beginning of the PSDU to the end of the BlockAck, or to the
 * moment when it gave up. A station's radio loses transmissions by an error model of ns-3. No BlockAck is
 * lost, but a station that gets no transmission sends none.
 */
#ifndef PATH_DEVICE_H
#define PATH_DEVICE_H

#include <array>
#include <cstdint>
#include <deque>
#include <map>
#include <vector>

#include "ns3/core-module.h"
#include "ns3/network-module.h"
#include "ns3/wifi-module.h"
#include "wf.h"

/// A station: its device, which has its address, its radio and its rate.
struct Station {
  ns3::Ptr<ns3::SimpleNetDevice> device;
  ns3::Ptr<ns3::WifiPhy> radio;
  uint8_t mcs;
  wf_form form = WF_FORM_VHT;
  uint16_t width = 80;   ///< of the channel, in MHz
  uint16_t guard = 800;  ///< interval, in nanoseconds
  uint8_t streams = 1;
  uint8_t antennas = 1;  ///< of the access point

  ns3::Mac48Address Address() const { return ns3::Mac48Address::ConvertFrom(device->GetAddress()); }

  /// How data to it are sent.
  ns3::WifiTxVector Data() const {
    const auto mode = form == WF_FORM_HT    ? ns3::HtPhy::GetHtMcs(mcs)
                      : form == WF_FORM_VHT ? ns3::VhtPhy::GetVhtMcs(mcs)
                                            : ns3::HePhy::GetHeMcs(mcs);
    const auto preamble = form == WF_FORM_HT    ? ns3::WIFI_PREAMBLE_HT_MF
                          : form == WF_FORM_VHT ? ns3::WIFI_PREAMBLE_VHT_SU
                                                : ns3::WIFI_PREAMBLE_HE_SU;
    return {mode, 0, preamble, guard, antennas, streams, 0, width, true};
  }

  /// Sets its rate in a path, and returns the code of that.
  int32_t SetRate(wf_path* path, uint16_t number, wf_reply* reply) const {
    const auto mhz = static_cast<uint8_t>(width);
    if (form == WF_FORM_HT) return wf_path_rate_ht(path, number, mcs, mhz, guard == 400, reply);
    if (form == WF_FORM_VHT) return wf_path_rate_vht(path, number, mcs, mhz, guard == 400, streams, reply);
    return wf_path_rate_he(path, number, mcs, mhz, guard, streams, reply);
  }

  /// How its answers, and requests for them, are sent: at 6, 12 or 24 Mbit/s, by the modulation of its data,
  /// as in ns-3's own Wi-Fi.
  ns3::WifiTxVector Control() const {
    const uint8_t modulation = form == WF_FORM_HT ? mcs % 8 : mcs;
    const auto mode = modulation == 0  ? ns3::OfdmPhy::GetOfdmRate6Mbps()
                      : modulation < 3 ? ns3::OfdmPhy::GetOfdmRate12Mbps()
                                       : ns3::OfdmPhy::GetOfdmRate24Mbps();
    return {mode, 0, ns3::WIFI_PREAMBLE_LONG, 800, 1, 1, 0, 20, false};
  }
};

/// The address and the radio of the access point, and its stations.
struct Air {
  ns3::Mac48Address address;
  ns3::Ptr<ns3::WifiPhy> radio;
  std::vector<Station> stations;

  uint16_t StationOf(const ns3::Address& address) const {
    for (uint16_t station = 0; station < stations.size(); station++) {
      if (stations[station].device->GetAddress() == address) return station;
    }
    NS_ABORT_MSG("no station has the address " << address);
  }
};

/// A station's receive half: it answers a PSDU with a BlockAck, puts data in the order of their numbers, and
/// passes them up.
class Receiver {
 public:
  explicit Receiver(const Station& station) : m_station(station) {
    m_station.radio->SetReceiveOkCallback(ns3::MakeCallback(&Receiver::Hear, this));
  }
  Receiver(const Receiver&) = delete;

 private:
  static constexpr uint16_t NUMBERS = 4096;
  static constexpr uint16_t WINDOW = 64;

  /// How far a number is ahead of another.
  static uint16_t Ahead(uint16_t number, uint16_t other) { return (number + NUMBERS - other) % NUMBERS; }

  bool IsNew(uint16_t number) const { return Ahead(number, m_next) < NUMBERS / 2; }

  /// Hears a PSDU, of which these transmissions arrived. (The radio also reports each frame of an aggregate
  /// alone.)
  void Hear(ns3::Ptr<const ns3::WifiPsdu> psdu, ns3::RxSignalInfo, ns3::WifiTxVector vector, std::vector<bool> arrived) {
    if (psdu->GetAddr1() != m_station.Address() || (vector.IsAggregation() && arrived.empty())) return;
    for (size_t index = 0; index < psdu->GetNMpdus(); index++) {
      if (arrived.empty() || arrived[index]) Take(*(psdu->begin() + index));
    }
    ns3::CtrlBAckResponseHeader block;
    block.SetType(ns3::BlockAckType::COMPRESSED);
    block.SetTidInfo(0);
    block.SetStartingSequence(m_next);
    for (const auto& [number, mpdu] : m_held) block.SetReceivedPacket(number);
    while (m_held.count(m_next)) Advance();
    ns3::Simulator::Schedule(m_station.radio->GetSifs(), &Receiver::Answer, this, psdu->GetAddr2(), block);
  }

  /// Receives a transmission, a data frame or a BlockAckReq.
  void Take(ns3::Ptr<const ns3::WifiMpdu> mpdu) {
    const uint16_t number = mpdu->GetHeader().GetSequenceNumber();
    if (mpdu->GetHeader().IsBlockAckReq()) {
      ns3::CtrlBAckRequestHeader request;
      mpdu->GetPacket()->PeekHeader(request);
      while (m_next != request.GetStartingSequence() && IsNew(request.GetStartingSequence())) Advance();
    } else if (IsNew(number)) {
      while (Ahead(number, m_next) >= WINDOW) Advance();
      m_held.emplace(number, mpdu);
    }
  }

  /// Passes up the packet of the next number, if it arrived: the packet that was sent, with its ns-3 tags.
  void Advance() {
    const auto found = m_held.find(m_next);
    if (found != m_held.end()) {
      const auto packet = found->second->GetPacket()->Copy();
      ns3::LlcSnapHeader link;
      packet->RemoveHeader(link);
      m_station.device->Receive(packet, link.GetType(), m_station.Address(), found->second->GetHeader().GetAddr3());
      m_held.erase(found);
    }
    m_next = (m_next + 1) % NUMBERS;
  }

  void Answer(ns3::Mac48Address to, const ns3::CtrlBAckResponseHeader& block) {
    ns3::WifiMacHeader header(ns3::WIFI_MAC_CTL_BACKRESP);
    header.SetAddr1(to);
    header.SetAddr2(m_station.Address());
    const auto packet = ns3::Create<ns3::Packet>();
    packet->AddHeader(block);
    m_station.radio->Send(ns3::Create<ns3::WifiPsdu>(packet, header), m_station.Control());
  }

  Station m_station;
  uint16_t m_next = 0;
  std::map<uint16_t, ns3::Ptr<const ns3::WifiMpdu>> m_held;
};

/// A device of the access point, by its radio. A subclass says what follows an exchange.
class AirDevice : public ns3::SimpleNetDevice {
 public:
  explicit AirDevice(const Air& air) : m_air(air), m_receivers(air.stations.begin(), air.stations.end()) {
    SetAddress(m_air.address);
    m_air.radio->SetReceiveOkCallback(ns3::MakeCallback(&AirDevice::Hear, this));
    m_backoff->SetAttribute("Max", ns3::DoubleValue(15));
    m_backoff->SetStream(2);
  }

 protected:
  /// How long it waits for the air: AIFS of best effort, and a backoff.
  ns3::Time Wait() const { return m_air.radio->GetSifs() + (3 + m_backoff->GetInteger()) * m_air.radio->GetSlot(); }

  /// Sends a PSDU to a station. `Over` follows.
  void Transmit(ns3::Ptr<const ns3::WifiPsdu> psdu, const ns3::WifiTxVector& vector, const Station& station) {
    const uint32_t answer = 32; // octets of a BlockAck
    m_begin = ns3::Simulator::Now();
    m_air.radio->Send(psdu, vector);
    const ns3::Time patience = ns3::WifiPhy::CalculateTxDuration(psdu, vector, ns3::WIFI_PHY_BAND_5GHZ) + m_air.radio->GetSifs() +
                               ns3::WifiPhy::CalculateTxDuration(answer, station.Control(), ns3::WIFI_PHY_BAND_5GHZ) +
                               m_air.radio->GetSlot();
    m_end = ns3::Simulator::Schedule(patience, &AirDevice::GiveUp, this);
  }

  /// Called when the exchange is over, with the octets of its BlockAck, if one was heard, and its airtime.
  virtual void Over(const std::vector<uint8_t>& answer, ns3::Time took) = 0;

  Air m_air;

 private:
  void Hear(ns3::Ptr<const ns3::WifiPsdu> psdu, ns3::RxSignalInfo, ns3::WifiTxVector, std::vector<bool>) {
    if (psdu->GetAddr1() != m_air.address) return;
    const auto packet = psdu->GetPayload(0)->Copy();
    packet->AddHeader(psdu->GetHeader(0));
    std::vector<uint8_t> octets(packet->GetSize());
    packet->CopyData(octets.data(), octets.size());
    m_end.Cancel();
    Over(octets, ns3::Simulator::Now() - m_begin);
  }

  void GiveUp() { Over({}, ns3::Simulator::Now() - m_begin); }

  std::deque<Receiver> m_receivers;
  ns3::Ptr<ns3::UniformRandomVariable> m_backoff = ns3::CreateObject<ns3::UniformRandomVariable>();
  ns3::Time m_begin;  ///< when the PSDU on the air began
  ns3::EventId m_end; ///< when it gives up
};

/// The access point's device over a path. All its packets have TID 0.
class PathDevice : public AirDevice {
 public:
  PathDevice(const Air& air, const wf_settings& settings) : AirDevice(air) {
    Must(wf_path_make(&m_path, &settings));
    Must(wf_path_set_base(&m_path, Octets(air.address).data()));
    for (uint16_t station = 0; station < air.stations.size(); station++) {
      Must(wf_path_set_address(&m_path, station, Octets(air.stations[station].Address()).data()));
      Must(wf_path_join(&m_path, station, 64, 0, 3, 1, &m_reply));
      Must(air.stations[station].SetRate(&m_path, station, &m_reply));
    }
  }

  ~PathDevice() override { wf_path_free(&m_path); }

  /// Enqueues a packet of UDP over IPv4. The packet itself is kept, and the frame's tag identifies it.
  bool Send(ns3::Ptr<ns3::Packet> packet, const ns3::Address& destination, uint16_t protocol) override {
    ns3::LlcSnapHeader link;
    link.SetType(protocol);
    packet->AddHeader(link);
    std::vector<uint8_t> body(packet->GetSize());
    packet->CopyData(body.data(), body.size());
    wf_packet given{};
    given.body = body.data();
    given.length = body.size();
    given.tag = m_came;
    // the flow: both addresses and ports, which follow 8 octets of the link's header and 12 of IPv4's
    given.flow = ns3::Hash32(reinterpret_cast<const char*>(body.data()) + 20, 12);
    m_air.address.CopyTo(given.source);
    Advance();
    const int32_t code = wf_path_enqueue(&m_path, m_air.StationOf(destination), &given, &m_reply);
    if (code == WF_ROOM) return false;
    Must(code);
    m_kept.emplace(m_came++, packet);
    if (!m_busy) Next();
    return true;
  }

 private:
  static void Must(int32_t code) { NS_ABORT_MSG_IF(code != WF_OK, "the path answered " << code); }

  static std::array<uint8_t, 6> Octets(const ns3::Mac48Address& address) {
    std::array<uint8_t, 6> octets{};
    address.CopyTo(octets.data());
    return octets;
  }

  /// Moves the path's clock to the time of ns-3.
  void Advance() { Must(wf_path_advance(&m_path, ns3::Simulator::Now().GetMicroSeconds(), &m_reply)); }

  /// Waits for the air.
  void Next() {
    m_busy = true;
    ns3::Simulator::Schedule(Wait(), &PathDevice::Begin, this);
  }

  /// The air is free: sends what the path pulls.
  void Begin() {
    Advance();
    m_busy = wf_path_can_pull(&m_path, WF_BE) != 0;
    if (!m_busy) return;
    Must(wf_path_pull(&m_path, WF_BE, &m_reply, &m_frames));
    m_exchange = m_reply.exchange;
    const Station& station = m_air.stations[m_reply.station];
    if (m_reply.request) {
      Transmit(Request(), station.Control(), station);
    } else {
      Transmit(Aggregate(), station.Data(), station);
    }
  }

  /// The aggregate of the exchange: the path's header for each frame, and the packet of its tag.
  ns3::Ptr<ns3::WifiPsdu> Aggregate() const {
    std::vector<ns3::Ptr<ns3::WifiMpdu>> mpdus;
    for (uint16_t index = 0; index < m_frames.count; index++) {
      std::array<uint8_t, WF_HEADER> octets{};
      uint64_t tag = 0;
      Must(wf_path_header(&m_path, m_exchange, index, octets.data()));
      Must(wf_path_frame_tag(&m_path, m_exchange, index, &tag));
      ns3::WifiMacHeader header;
      ns3::Create<ns3::Packet>(octets.data(), octets.size())->PeekHeader(header);
      mpdus.push_back(ns3::Create<ns3::WifiMpdu>(m_kept.at(tag), header));
    }
    return ns3::Create<ns3::WifiPsdu>(mpdus);
  }

  /// The BlockAckReq of the exchange.
  ns3::Ptr<ns3::WifiPsdu> Request() const {
    std::array<uint8_t, WF_GREATEST_MPDU> octets{};
    size_t size = 0;
    Must(wf_path_mpdu(&m_path, m_exchange, 0, octets.data(), octets.size(), &size));
    const auto packet = ns3::Create<ns3::Packet>(octets.data(), size);
    ns3::WifiMacHeader header;
    packet->RemoveHeader(header);
    return ns3::Create<ns3::WifiPsdu>(packet, header);
  }

  /// Ends the exchange by its BlockAck and its measured airtime, and reaps the finished frames, whose packets
  /// are then freed.
  void Over(const std::vector<uint8_t>& answer, ns3::Time took) override {
    const uint32_t air = took.GetMicroSeconds();
    Advance();
    Must(answer.empty() ? wf_path_done_lost(&m_path, m_exchange, air, &m_reply)
                        : wf_path_done_octets(&m_path, m_exchange, answer.data(), answer.size(), air, &m_reply));
    wf_taken taken{};
    while (wf_path_reap(&m_path, &m_reply, &taken, nullptr, 0) == WF_OK) m_kept.erase(taken.tag);
    Next();
  }

  wf_path m_path{};
  wf_reply m_reply{};
  wf_frames m_frames{};
  uint64_t m_exchange = 0;                                ///< the last one that was pulled
  uint64_t m_came = 0;                                    ///< packets that the path has accepted
  std::map<uint64_t, ns3::Ptr<const ns3::Packet>> m_kept; ///< packets inside, by their tags
  bool m_busy = false;                                    ///< it waits for the air, or an exchange is on it
};

#endif
