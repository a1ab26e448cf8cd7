// Writes a capture of A-MPDUs with ns-3: an access point of 802.11n floods a station, which answers by BlockAcks.
// `ampdu FOLDER` writes FOLDER/point-0-0.pcap, with radiotap fields. (Without them, ns-3 3.37 leaves the delimiters of
// an A-MPDU in the packets, which tshark cannot read.)
#include "ns3/applications-module.h"
#include "ns3/core-module.h"
#include "ns3/internet-module.h"
#include "ns3/mobility-module.h"
#include "ns3/network-module.h"
#include "ns3/wifi-module.h"

#include <iostream>
#include <string>

using namespace ns3;

int main(int argc, char **argv)
{
    if (argc != 2) {
        std::cerr << "usage: ampdu FOLDER\n";
        return 1;
    }
    const std::string folder = argv[1];
    NodeContainer nodes(2);

    YansWifiPhyHelper phy;
    YansWifiChannelHelper channel = YansWifiChannelHelper::Default();
    phy.SetChannel(channel.Create());
    WifiHelper wifi;
    wifi.SetStandard(WIFI_STANDARD_80211n);
    wifi.SetRemoteStationManager("ns3::ConstantRateWifiManager", "DataMode", StringValue("HtMcs7"), "ControlMode",
                                 StringValue("HtMcs0"));
    WifiMacHelper mac;
    const Ssid ssid("net");
    mac.SetType("ns3::ApWifiMac", "Ssid", SsidValue(ssid));
    const NetDeviceContainer point = wifi.Install(phy, mac, nodes.Get(0));
    mac.SetType("ns3::StaWifiMac", "Ssid", SsidValue(ssid));
    const NetDeviceContainer station = wifi.Install(phy, mac, nodes.Get(1));

    MobilityHelper places;
    places.Install(nodes);
    InternetStackHelper stack;
    stack.Install(nodes);
    Ipv4AddressHelper addresses;
    addresses.SetBase("10.0.0.0", "255.255.255.0");
    addresses.Assign(point);
    const Ipv4InterfaceContainer reached = addresses.Assign(station);

    UdpClientHelper flood(reached.GetAddress(0), 9);
    flood.SetAttribute("Interval", TimeValue(MicroSeconds(200)));
    flood.SetAttribute("PacketSize", UintegerValue(700));
    flood.SetAttribute("MaxPackets", UintegerValue(400));
    flood.Install(nodes.Get(0)).Start(Seconds(0.5));
    UdpServerHelper(9).Install(nodes.Get(1));

    phy.SetPcapDataLinkType(WifiPhyHelper::DLT_IEEE802_11_RADIO);
    phy.EnablePcap(folder + "/point", point.Get(0));
    Simulator::Stop(Seconds(1));
    Simulator::Run();
    Simulator::Destroy();
    return 0;
}
