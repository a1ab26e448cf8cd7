/*
 * ns-3's own Wi-Fi with the stations and the floods of a scenario of sim/, to compare the bench with. With
 * --path the access point has a path of the library instead of a device of ns-3 (examples/ns3/path-device.h).
 *
 * Standard input has a line for each station: the format of its rate (ht, vht or he), MCS, MHz, guard interval
 * in nanoseconds, spatial streams, Mbit/s of the flood to it, the share of transmissions that are lost, and
 * octets and weight of each size of frame. Frames come at random times (Poisson). A frame of a flood is a UDP
 * datagram; its octets count the headers of LLC, IPv4 and UDP. Standard output has a line for each station: its
 * airtime in seconds, and the Mbit/s that it received, in the same octets. The airtime counts PSDUs to a station,
 * and its answers with the SIFS before each. Nothing is counted before `warmup`.
 *
 *   wifi --seconds=N --warmup=N --queue=N --discipline=NAME --limit=N --frames=N --path --seed=N < STATIONS
 */
#include <algorithm>
#include <array>
#include <cstdio>
#include <iostream>
#include <map>
#include <sstream>
#include <string>
#include <vector>

#include "ns3/applications-module.h"
#include "ns3/core-module.h"
#include "ns3/internet-module.h"
#include "ns3/mobility-module.h"
#include "ns3/traffic-control-module.h"
#include "ns3/wifi-module.h"
#include "path-device.h"

using namespace ns3;

namespace {

constexpr uint16_t PORT = 1000;
constexpr uint8_t ANTENNAS = 4;
constexpr uint32_t LONGEST = 10'000; // the greatest airtime of an exchange over a path, in microseconds
constexpr uint32_t HEADERS = 36; // octets of LLC, IPv4 and UDP in a body
constexpr uint32_t AROUND = 38;  // octets around a body in an aggregate: delimiter, header, check sequence, padding

/// A station of the scenario.
struct Line {
  std::string form;
  uint16_t mcs = 0, mhz = 20, guard = 800, streams = 1;
  double mbit = 0, loss = 0;
  std::vector<std::pair<uint32_t, double>> sizes;

  /// The station with a device and a radio.
  Station With(Ptr<SimpleNetDevice> device, Ptr<WifiPhy> radio) const {
    const auto format = form == "ht" ? WF_FORM_HT : form == "vht" ? WF_FORM_VHT : WF_FORM_HE;
    return {device, radio, static_cast<uint8_t>(mcs), format, mhz, guard, static_cast<uint8_t>(streams), ANTENNAS};
  }
};

/// The stations of standard input.
std::vector<Line> Read() {
  std::vector<Line> lines;
  for (std::string text; std::getline(std::cin, text);) {
    Line line;
    std::istringstream words(text);
    words >> line.form >> line.mcs >> line.mhz >> line.guard >> line.streams >> line.mbit >> line.loss;
    NS_ABORT_MSG_IF(!words, "no station: " << text);
    for (std::pair<uint32_t, double> size; words >> size.first >> size.second;) line.sizes.push_back(size);
    lines.push_back(line);
  }
  return lines;
}

/// ns-3's rate control, with a rate for each station.
class RatePerStation : public ConstantRateWifiManager {
 public:
  static TypeId GetTypeId() {
    static TypeId type = TypeId("RatePerStation").SetParent<ConstantRateWifiManager>().AddConstructor<RatePerStation>();
    return type;
  }

  void Set(Mac48Address station, const WifiTxVector& rate) { m_rates[station] = rate; }

 private:
  WifiTxVector DoGetDataTxVector(WifiRemoteStation* station, uint16_t) override { return m_rates.at(station->m_state->m_address); }

  std::map<Mac48Address, WifiTxVector> m_rates;
};

NS_OBJECT_ENSURE_REGISTERED(RatePerStation);

/// A flood to a station.
class Flood : public Application {
 public:
  Flood(const Line& line, Ipv4Address to, uint16_t port) : m_line(line), m_to(to), m_port(port) {}

 private:
  void StartApplication() override {
    m_socket = Socket::CreateSocket(GetNode(), UdpSocketFactory::GetTypeId());
    m_socket->Connect(InetSocketAddress(m_to, m_port));
    double octets = 0, weights = 0;
    for (const auto& [size, weight] : m_line.sizes) octets += size * weight, weights += weight;
    m_mean = 8e-6 * octets / weights / m_line.mbit;
    Wait();
  }

  void Wait() { Simulator::Schedule(Seconds(m_times->GetValue(m_mean, 0)), &Flood::Send, this); }

  void Send() {
    double weights = 0;
    for (const auto& size : m_line.sizes) weights += size.second;
    double drawn = m_sizes->GetValue(0, weights);
    size_t at = 0;
    while (at + 1 < m_line.sizes.size() && drawn >= m_line.sizes[at].second) drawn -= m_line.sizes[at++].second;
    m_socket->Send(Create<Packet>(m_line.sizes[at].first - HEADERS));
    Wait();
  }

  Line m_line;
  Ipv4Address m_to;
  uint16_t m_port;
  double m_mean = 0;
  Ptr<Socket> m_socket;
  Ptr<ExponentialRandomVariable> m_times = CreateObject<ExponentialRandomVariable>();
  Ptr<UniformRandomVariable> m_sizes = CreateObject<UniformRandomVariable>();
};

/// What the stations got.
struct Counts {
  std::map<Mac48Address, uint16_t> numbers;
  std::vector<double> airtime; // seconds
  std::vector<double> octets;
  Time warmup;
  Time sifs;

  void Carry(WifiConstPsduMap sent, WifiTxVector vector, double) {
    if (Simulator::Now() < warmup) return;
    const auto psdu = sent.begin()->second;
    const Time took = WifiPhy::CalculateTxDuration(psdu, vector, WIFI_PHY_BAND_5GHZ);
    const auto to = numbers.find(psdu->GetAddr1());
    if (to != numbers.end()) airtime[to->second] += took.GetSeconds();
    if (psdu->GetHeader(0).IsCts() || psdu->GetHeader(0).IsAck()) return; // they do not say who sent them
    const auto from = numbers.find(psdu->GetAddr2());
    if (from != numbers.end()) airtime[from->second] += (sifs + took).GetSeconds();
  }
};

void OnReceived(Counts* counts, uint16_t station, Ptr<const Packet> packet) {
  if (Simulator::Now() >= counts->warmup) counts->octets[station] += packet->GetSize() + HEADERS;
}

/// The options of the command line.
struct Options {
  double seconds = 10, warmup = 2;
  uint32_t queue = 500, limit = 1000, frames = 32;
  std::string discipline = "ns3::PfifoFastQueueDisc";
  bool path = false;
};

WifiStandard StandardOf(const std::string& form) {
  return form == "ht" ? WIFI_STANDARD_80211n : form == "vht" ? WIFI_STANDARD_80211ac : WIFI_STANDARD_80211ax;
}

/// Makes radios on one channel, of the width of the first station.
YansWifiPhyHelper Radios(const Line& first) {
  YansWifiPhyHelper phy;
  phy.SetChannel(YansWifiChannelHelper::Default().Create());
  const std::string channel = first.mhz == 20 ? "{36, 20" : first.mhz == 40 ? "{38, 40" : "{42, 80";
  phy.Set("ChannelSettings", StringValue(channel + ", BAND_5GHZ, 0}"));
  for (const char* name : {"Antennas", "MaxSupportedTxSpatialStreams", "MaxSupportedRxSpatialStreams"}) phy.Set(name, UintegerValue(ANTENNAS));
  return phy;
}

/// Has a radio lose a share of what it receives.
void Lose(Ptr<WifiPhy> radio, double share) {
  if (share == 0) return;
  auto losses = CreateObject<RateErrorModel>();
  losses->SetUnit(RateErrorModel::ERROR_UNIT_PACKET);
  losses->SetRate(share);
  radio->SetPostReceptionErrorModel(losses);
}

/// Has what radios send counted.
void Count(Counts& counts, const std::vector<Ptr<WifiPhy>>& radios) {
  for (const auto& radio : radios) {
    radio->TraceConnectWithoutContext("PhyTxPsduBegin", MakeCallback(&Counts::Carry, &counts));
    counts.sifs = radio->GetSifs();
  }
}

/// Makes a node's radio, without a MAC of ns-3.
Ptr<WifiPhy> BareRadio(const WifiPhyHelper& radios, const std::string& form, Ptr<Node> node) {
  auto holder = CreateObject<WifiNetDevice>();
  holder->SetNode(node);
  const auto radio = radios.Create(node, holder)[0];
  radio->ConfigureStandard(StandardOf(form));
  radio->Initialize();
  return radio;
}

/// Puts a path on node 0, and stations of its device on the others.
NetDeviceContainer InstallPath(const NodeContainer& nodes, const std::vector<Line>& lines, const Options& options, Counts& counts) {
  const auto radios = Radios(lines.front());
  const std::string form = lines.front().form;
  Air air{Mac48Address::Allocate(), BareRadio(radios, form, nodes.Get(0)), {}};
  std::vector<Ptr<WifiPhy>> all{air.radio};
  for (uint16_t number = 0; number < lines.size(); number++) {
    const auto station = lines[number].With(CreateObject<SimpleNetDevice>(), BareRadio(radios, form, nodes.Get(1 + number)));
    station.device->SetAddress(Mac48Address::Allocate());
    Lose(station.radio, lines[number].loss);
    counts.numbers[station.Address()] = number;
    air.stations.push_back(station);
    all.push_back(station.radio);
  }
  Count(counts, all);
  wf_settings settings{};
  wf_settings_standard(&settings);
  settings.agg = options.frames;
  settings.charge = LONGEST;
  NetDeviceContainer devices(CreateObject<PathDevice>(air, settings));
  for (const Station& station : air.stations) devices.Add(station.device);
  const auto link = CreateObject<SimpleChannel>(); // a SimpleNetDevice requires a channel, which carries nothing here
  for (uint32_t i = 0; i < devices.GetN(); i++) {
    const auto device = DynamicCast<SimpleNetDevice>(devices.Get(i));
    device->SetMtu(1500);
    device->SetChannel(link);
    nodes.Get(i)->AddDevice(device);
  }
  return devices;
}

/// Makes the access point's device of ns-3 on node 0 and the stations' on the others.
NetDeviceContainer Install(const NodeContainer& nodes, const std::vector<Line>& lines, const Options& options, Counts& counts) {
  const auto phy = Radios(lines.front());
  const std::string form = lines.front().form;
  WifiHelper wifi;
  wifi.SetStandard(StandardOf(form));
  wifi.SetRemoteStationManager("RatePerStation");
  uint32_t longest = 0;
  for (const auto& [size, weight] : lines.front().sizes) longest = std::max(longest, size);
  const uint32_t most = form == "ht" ? 65535 : 6500631;
  WifiMacHelper mac;
  mac.SetType("ns3::ApWifiMac", "BE_MaxAmpduSize", UintegerValue(std::min(options.frames * (longest + AROUND), most)));
  NetDeviceContainer devices = wifi.Install(phy, mac, nodes.Get(0));
  const auto sender = DynamicCast<WifiNetDevice>(devices.Get(0));
  const auto rates = DynamicCast<RatePerStation>(sender->GetRemoteStationManager());
  mac.SetType("ns3::StaWifiMac");
  std::vector<Ptr<WifiPhy>> all{sender->GetPhy()};
  for (uint16_t station = 0; station < lines.size(); station++) {
    devices.Add(wifi.Install(phy, mac, nodes.Get(1 + station)));
    const auto device = DynamicCast<WifiNetDevice>(devices.Get(1 + station));
    const Mac48Address address = device->GetMac()->GetAddress();
    counts.numbers[address] = station;
    rates->Set(address, lines[station].With(nullptr, nullptr).Data());
    Lose(device->GetPhy(), lines[station].loss);
    all.push_back(device->GetPhy());
  }
  Count(counts, all);
  return devices;
}

/// Runs, and fills the counts.
void Run(const std::vector<Line>& lines, const Options& options, Counts& counts) {
  NodeContainer nodes;
  nodes.Create(1 + lines.size());
  MobilityHelper().Install(nodes); // all at one place
  const auto devices = (options.path ? InstallPath : Install)(nodes, lines, options, counts);
  InternetStackHelper().Install(nodes);
  if (!options.path) {
    TrafficControlHelper control;
    control.SetRootQueueDisc(options.discipline, "MaxSize", QueueSizeValue(QueueSize(QueueSizeUnit::PACKETS, options.limit)));
    control.Install(devices.Get(0));
  }
  const auto addresses = Ipv4AddressHelper("10.0.0.0", "255.255.255.0").Assign(devices);
  NeighborCacheHelper().PopulateNeighborCache(devices);
  for (uint16_t station = 0; station < lines.size(); station++) {
    const uint16_t port = PORT + station;
    PacketSinkHelper sink("ns3::UdpSocketFactory", InetSocketAddress(Ipv4Address::GetAny(), port));
    sink.Install(nodes.Get(1 + station)).Get(0)->TraceConnectWithoutContext("RxWithAddresses", Callback<void, Ptr<const Packet>, const Address&, const Address&>(
        [&counts, station](Ptr<const Packet> packet, const Address&, const Address&) { OnReceived(&counts, station, packet); }));
    const auto flood = CreateObject<Flood>(lines[station], addresses.GetAddress(1 + station), port);
    nodes.Get(0)->AddApplication(flood);
    flood->SetStartTime(Seconds(0.5)); // when all have associated
  }
  Simulator::Stop(Seconds(options.seconds));
  Simulator::Run();
  Simulator::Destroy();
}

} // namespace

int main(int count, char* words[]) {
  Options options;
  uint32_t seed = 1;
  CommandLine line(__FILE__);
  line.AddValue("seconds", "simulated time", options.seconds);
  line.AddValue("warmup", "nothing is counted before this time", options.warmup);
  line.AddValue("queue", "packets in the queue of the MAC", options.queue);
  line.AddValue("limit", "packets in the queue discipline", options.limit);
  line.AddValue("discipline", "the queue discipline", options.discipline);
  line.AddValue("frames", "most frames of the longest size in an aggregate", options.frames);
  line.AddValue("path", "a path of the library instead of ns-3's device and queues", options.path);
  line.AddValue("seed", "determines all random numbers", seed);
  line.Parse(count, words);
  RngSeedManager::SetSeed(1);
  RngSeedManager::SetRun(seed);
  Config::SetDefault("ns3::WifiMacQueue::MaxSize", QueueSizeValue(QueueSize(QueueSizeUnit::PACKETS, options.queue)));
  const auto lines = Read();
  Counts counts;
  counts.airtime.resize(lines.size());
  counts.octets.resize(lines.size());
  counts.warmup = Seconds(options.warmup);
  Run(lines, options, counts);
  for (size_t station = 0; station < lines.size(); station++) {
    std::printf("%.6f %.4f\n", counts.airtime[station], 8e-6 * counts.octets[station] / (options.seconds - options.warmup));
  }
  return 0;
}
