/*
 * A bench for ns-3: an access point sends to three stations of different rates, over a path of the library
 * (path-device.h), over two queue disciplines of ns-3, and over ns-3's own Wi-Fi. All send over an ns-3
 * channel of 80 MHz, at rates of VHT.
 *
 * The traffic consists of UDP flows through ns-3's sockets, UDP and IPv4: a heavy flow of some 130 Mbit/s to
 * each station, and a sparse one to the fast station, with a small packet every 20 milliseconds. One of 16
 * transmissions is lost. Below the queue disciplines each packet is sent alone. ns-3's Wi-Fi aggregates, and
 * sends beacons. The airtime of a station counts PSDUs to it and its answers, with the SIFS before each.
 * ns-3's FlowMonitor reports the packets that arrive, by a tag that it puts on each. The first second is not
 * counted.
 *
 *   queues [--seconds=N]
 */
#include <algorithm>
#include <array>
#include <cstdio>
#include <map>
#include <numeric>
#include <string>

#include "ns3/applications-module.h"
#include "ns3/flow-monitor-module.h"
#include "ns3/internet-module.h"
#include "ns3/mobility-module.h"
#include "ns3/traffic-control-module.h"
#include "path-device.h"

using namespace ns3;

namespace {

/// The rate of a station: its MCS of VHT, and Mbit/s on 80 MHz with one stream.
struct Rate {
  const char* name;
  uint8_t mcs;
  double mbits;
};

constexpr std::array<Rate, 3> RATES{{{"fast", 9, 390}, {"middle", 4, 175.5}, {"slow", 0, 29.3}}};
constexpr uint16_t STATIONS = RATES.size();
constexpr uint16_t SPARSE = STATIONS; // the number of the sparse flow; a heavy flow has the number of its station
constexpr uint16_t PORT = 1000;       // the port of flow 0
constexpr uint32_t LIMIT = 600;       // packets in a queue, all flows together
constexpr uint32_t LONGEST = 10'000;  // the greatest airtime of an exchange, in microseconds
constexpr double LOST = 1.0 / 16;     // of the transmissions
const Time WARM = Seconds(1);         // nothing is counted before

using StationNumbers = std::map<Mac48Address, uint16_t>;
using Flows = std::array<FlowMonitor::FlowStats, STATIONS + 1>;

/// The airtime of each station.
class Airtimes {
 public:
  /// Counts a PSDU to a station, or from one.
  void Carry(const StationNumbers& numbers, Ptr<const WifiPsdu> psdu, const WifiTxVector& vector, Time sifs) {
    if (Simulator::Now() < WARM) return;
    const Time airtime = WifiPhy::CalculateTxDuration(psdu, vector, WIFI_PHY_BAND_5GHZ);
    const auto to = numbers.find(psdu->GetAddr1());
    if (to != numbers.end()) m_air[to->second] += airtime.GetSeconds();
    if (psdu->GetHeader(0).IsCts() || psdu->GetHeader(0).IsAck()) return; // they do not say who sent them
    const auto from = numbers.find(psdu->GetAddr2());
    if (from != numbers.end()) m_air[from->second] += (sifs + airtime).GetSeconds();
  }

  double Share(uint16_t station) const { return m_air[station] / std::accumulate(m_air.begin(), m_air.end(), 0.0); }

 private:
  std::array<double, STATIONS> m_air{};
};

/// The delay of a flow that 95 of 100 packets do not exceed, in milliseconds.
double Most(Histogram delays, uint32_t packets) {
  uint64_t passed = 0;
  for (uint32_t bin = 0; bin < delays.GetNBins(); bin++) {
    passed += delays.GetBinCount(bin);
    if (100 * passed >= 95 * uint64_t{packets}) return 1000 * delays.GetBinEnd(bin);
  }
  return 0;
}

/// Prints a table: the airtime of each station, and the octets and delays of each flow.
void Print(const std::string& title, const Airtimes& airtimes, const Flows& flows, Time until) {
  std::printf("%s\nflow      Mbit/s airtime %%   kbit/s  mean ms  95 %% ms\n", title.c_str());
  for (uint16_t flow = 0; flow <= SPARSE; flow++) {
    if (flow == SPARSE) {
      std::printf("%-8s %7s %9s", "sparse", "", "");
    } else {
      std::printf("%-8s %7.1f %9.1f", RATES[flow].name, RATES[flow].mbits, 100 * airtimes.Share(flow));
    }
    const FlowMonitor::FlowStats& seen = flows[flow];
    const double mean = 1000 * seen.delaySum.GetSeconds() / std::max(seen.rxPackets, 1u);
    const double kbits = 8e-3 * seen.rxBytes / (until - WARM).GetSeconds();
    std::printf(" %8.0f %8.1f %8.1f\n", kbits, mean, Most(seen.delayHistogram, seen.rxPackets));
  }
}

/// Which transmissions are lost: the same draws in each run.
Ptr<ErrorModel> Losses() {
  auto losses = CreateObject<RateErrorModel>();
  losses->SetUnit(RateErrorModel::ERROR_UNIT_PACKET);
  losses->SetRate(LOST);
  losses->AssignStreams(1);
  return losses;
}

/// A device below a queue discipline of ns-3: it sends one packet at a time, and sends it again if it does
/// not arrive.
class PlainDevice : public AirDevice {
 public:
  PlainDevice(const Air& air, const wf_settings& settings)
      : AirDevice(air), m_attempts(settings.attempts), m_numbers(air.stations.size()) {}

  bool Send(Ptr<Packet> packet, const Address& destination, uint16_t protocol) override {
    LlcSnapHeader link;
    link.SetType(protocol);
    packet->AddHeader(link);
    m_packet = packet;
    m_station = m_air.StationOf(destination);
    m_attempt = 1;
    GetObject<NetDeviceQueueInterface>()->GetTxQueue(0)->Stop();
    Simulator::Schedule(Wait(), &PlainDevice::Begin, this);
    return true;
  }

 private:
  /// The air is free: sends the packet as the only data frame of an aggregate.
  void Begin() {
    const Station& station = m_air.stations[m_station];
    WifiMacHeader header(WIFI_MAC_QOSDATA);
    header.SetDsFrom();
    header.SetDsNotTo();
    header.SetAddr1(station.Address());
    header.SetAddr2(m_air.address);
    header.SetAddr3(m_air.address);
    header.SetSequenceNumber(m_numbers[m_station]);
    header.SetQosTid(0);
    Transmit(Create<WifiPsdu>(Create<WifiMpdu>(m_packet, header), true), station.Data(), station);
  }

  void Over(const std::vector<uint8_t>& answer, Time) override {
    if (answer.empty() && m_attempt++ < m_attempts) {
      Simulator::Schedule(Wait(), &PlainDevice::Begin, this);
      return;
    }
    // a packet that never arrived leaves its number to the next one
    if (!answer.empty()) m_numbers[m_station] = (m_numbers[m_station] + 1) % 4096;
    GetObject<NetDeviceQueueInterface>()->GetTxQueue(0)->Wake();
  }

  Ptr<Packet> m_packet;
  uint16_t m_station = 0;
  uint32_t m_attempt = 0;
  uint32_t m_attempts;
  std::vector<uint16_t> m_numbers;
};

void OnPsdu(Airtimes* airtimes, StationNumbers numbers, Time sifs, WifiConstPsduMap sent, WifiTxVector vector, double) {
  airtimes->Carry(numbers, sent.begin()->second, vector, sifs);
}

/// Counts the airtime of what these radios send: the access point's, and those of the stations with these
/// addresses.
void Count(Airtimes& airtimes, const std::vector<Ptr<WifiPhy>>& radios, const StationNumbers& numbers) {
  for (const auto& radio : radios) {
    radio->TraceConnectWithoutContext("PhyTxPsduBegin", MakeBoundCallback(&OnPsdu, &airtimes, numbers, radio->GetSifs()));
  }
}

/// Makes radios on one channel of 80 MHz.
YansWifiPhyHelper Radios() {
  YansWifiPhyHelper phy;
  phy.SetChannel(YansWifiChannelHelper::Default().Create());
  phy.Set("ChannelSettings", StringValue("{42, 80, BAND_5GHZ, 0}"));
  return phy;
}

/// Makes a node's radio, without a MAC of ns-3.
Ptr<WifiPhy> BareRadio(const WifiPhyHelper& radios, Ptr<Node> node) {
  auto holder = CreateObject<WifiNetDevice>();
  holder->SetNode(node);
  const auto radio = radios.Create(node, holder)[0];
  radio->ConfigureStandard(WIFI_STANDARD_80211ac);
  radio->Initialize();
  return radio;
}

/// Puts the access point's device on node 0 and the stations' on the others.
template <typename Device>
NetDeviceContainer InstallAir(const NodeContainer& nodes, Airtimes& airtimes) {
  const auto radios = Radios();
  Air air{Mac48Address::Allocate(), BareRadio(radios, nodes.Get(0)), {}};
  std::vector<Ptr<WifiPhy>> all{air.radio};
  StationNumbers numbers;
  for (uint16_t number = 0; number < STATIONS; number++) {
    const Station station{CreateObject<SimpleNetDevice>(), BareRadio(radios, nodes.Get(1 + number)), RATES[number].mcs};
    station.device->SetAddress(Mac48Address::Allocate());
    station.radio->SetPostReceptionErrorModel(Losses());
    numbers[station.Address()] = number;
    air.stations.push_back(station);
    all.push_back(station.radio);
  }
  Count(airtimes, all, numbers);
  wf_settings settings{};
  wf_settings_standard(&settings);
  settings.limit = LIMIT;
  settings.agg = 64;
  settings.charge = LONGEST;
  NetDeviceContainer devices(CreateObject<Device>(air, settings));
  for (const Station& station : air.stations) devices.Add(station.device);
  const auto link = CreateObject<SimpleChannel>(); // a SimpleNetDevice requires a channel, which carries nothing here
  for (uint32_t i = 0; i < devices.GetN(); i++) {
    const auto device = DynamicCast<SimpleNetDevice>(devices.Get(i));
    device->SetMtu(1500);
    device->SetChannel(link);
    nodes.Get(i)->AddDevice(device);
  }
  return devices;
}

/// ns-3's rate control, with a rate for each station.
class RatePerStation : public ConstantRateWifiManager {
 public:
  static TypeId GetTypeId() {
    static TypeId type = TypeId("RatePerStation").SetParent<ConstantRateWifiManager>().AddConstructor<RatePerStation>();
    return type;
  }

  void Set(Mac48Address station, uint8_t mcs) { m_rates[station] = mcs; }

 private:
  WifiTxVector DoGetDataTxVector(WifiRemoteStation* station, uint16_t) override {
    return Station{nullptr, nullptr, m_rates[station->m_state->m_address]}.Data();
  }

  std::map<Mac48Address, uint8_t> m_rates;
};

NS_OBJECT_ENSURE_REGISTERED(RatePerStation);

/// ns-3's Wi-Fi on the same nodes.
NetDeviceContainer InstallWifi(const NodeContainer& nodes, Airtimes& airtimes) {
  const auto phy = Radios();
  WifiHelper wifi;
  wifi.SetStandard(WIFI_STANDARD_80211ac);
  wifi.SetRemoteStationManager("RatePerStation");
  WifiMacHelper mac;
  mac.SetType("ns3::ApWifiMac", "BE_MaxAmpduSize", UintegerValue(1048575));
  NetDeviceContainer devices = wifi.Install(phy, mac, nodes.Get(0));
  const auto sender = DynamicCast<WifiNetDevice>(devices.Get(0));
  mac.SetType("ns3::StaWifiMac");
  std::vector<Ptr<WifiPhy>> all{sender->GetPhy()};
  StationNumbers numbers;
  for (uint16_t station = 0; station < STATIONS; station++) {
    devices.Add(wifi.Install(phy, mac, nodes.Get(1 + station)));
    const auto device = DynamicCast<WifiNetDevice>(devices.Get(1 + station));
    const Mac48Address address = device->GetMac()->GetAddress();
    numbers[address] = station;
    device->GetPhy()->SetPostReceptionErrorModel(Losses());
    all.push_back(device->GetPhy());
    DynamicCast<RatePerStation>(sender->GetRemoteStationManager())->Set(address, RATES[station].mcs);
  }
  Count(airtimes, all, numbers);
  return devices;
}

/// Starts a flow from the access point to a station's node.
void StartFlow(const NodeContainer& nodes, Ptr<Node> to, Ipv4Address address, uint16_t flow, uint32_t octets, Time interval) {
  UdpServerHelper(PORT + flow).Install(to);
  UdpClientHelper client(address, PORT + flow);
  client.SetAttribute("MaxPackets", UintegerValue(UINT32_MAX));
  client.SetAttribute("PacketSize", UintegerValue(octets));
  client.SetAttribute("Interval", TimeValue(interval));
  client.Install(nodes.Get(0)).Start(Seconds(0.5));
}

/// Starts the traffic: a heavy flow to each station, and the sparse one.
void StartFlows(const NodeContainer& nodes, const Ipv4InterfaceContainer& addresses) {
  for (uint16_t station = 0; station < STATIONS; station++) {
    // different, so that a full queue does not always drop packets of the same flow
    const Time interval = MicroSeconds(89 + 2 * station);
    StartFlow(nodes, nodes.Get(1 + station), addresses.GetAddress(1 + station), station, 1472, interval);
  }
  StartFlow(nodes, nodes.Get(1), addresses.GetAddress(1), SPARSE, 172, MilliSeconds(20));
}

/// The statistics of ns-3's monitor for each flow.
Flows FlowsOf(FlowMonitorHelper& helper) {
  Flows flows;
  const auto classifier = DynamicCast<Ipv4FlowClassifier>(helper.GetClassifier());
  for (const auto& [id, seen] : helper.GetMonitor()->GetFlowStats()) {
    const uint16_t port = classifier->FindFlow(id).destinationPort;
    if (port >= PORT && port <= PORT + SPARSE) flows[port - PORT] = seen;
  }
  return flows;
}

/// One run: the devices, a queue discipline of ns-3 over the access point's device, if one is given, and the
/// traffic.
template <typename Install>
void Run(const std::string& title, Install install, const std::string& discipline, Time until) {
  Airtimes airtimes;
  NodeContainer nodes;
  nodes.Create(1 + STATIONS);
  MobilityHelper().Install(nodes); // all at one place
  const NetDeviceContainer devices = install(nodes, airtimes);
  if (!discipline.empty() && !devices.Get(0)->GetObject<NetDeviceQueueInterface>()) {
    devices.Get(0)->AggregateObject(CreateObject<NetDeviceQueueInterface>()); // by which it stops and wakes the discipline
  }
  InternetStackHelper().Install(nodes);
  if (!discipline.empty()) {
    TrafficControlHelper control;
    control.SetRootQueueDisc(discipline, "MaxSize", QueueSizeValue(QueueSize(QueueSizeUnit::PACKETS, LIMIT)));
    control.Install(devices.Get(0));
  }
  const auto addresses = Ipv4AddressHelper("10.0.0.0", "255.255.255.0").Assign(devices);
  NeighborCacheHelper().PopulateNeighborCache(devices);
  StartFlows(nodes, addresses);
  FlowMonitorHelper monitor;
  monitor.SetMonitorAttribute("StartTime", TimeValue(WARM));
  monitor.SetMonitorAttribute("DelayBinWidth", DoubleValue(0.0001));
  monitor.InstallAll();
  Simulator::Stop(until);
  Simulator::Run();
  const Flows flows = FlowsOf(monitor);
  Simulator::Destroy();
  Print(title, airtimes, flows, until);
}

} // namespace

int main(int count, char* words[]) {
  double seconds = 6;
  CommandLine line(__FILE__);
  line.AddValue("seconds", "simulated time of each run", seconds);
  line.Parse(count, words);
  const Time until = Seconds(seconds);
  Run("A path of the library", InstallAir<PathDevice>, "", until);
  Run("FqCoDelQueueDisc, packet by packet", InstallAir<PlainDevice>, "ns3::FqCoDelQueueDisc", until);
  Run("PfifoFastQueueDisc, packet by packet", InstallAir<PlainDevice>, "ns3::PfifoFastQueueDisc", until);
  Run("ns-3's Wi-Fi below FqCoDelQueueDisc", InstallWifi, "ns3::FqCoDelQueueDisc", until);
  return 0;
}
