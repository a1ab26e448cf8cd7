/* Writes the rows of ns3.csv: the durations of OFDM and of DSSS with its long preamble, by ns-3.
 *
 * Build it as tools/wfdev/checks/ns3.py builds its program, with the modules ns3-wifi and ns3-core; then: ./legacy > ns3.csv
 */
#include <cstdint>
#include <cstdio>
#include <initializer_list>

#include "ns3/dsss-phy.h"
#include "ns3/ofdm-phy.h"
#include "ns3/wifi-phy.h"
#include "ns3/wifi-tx-vector.h"

using namespace ns3;

/* A row: the format, its speed as in a trace, the octets of the frame, kbit/s, and nanoseconds. */
static void row(const char *format, unsigned speed, uint32_t octets, WifiMode mode, WifiPhyBand band) {
  WifiTxVector vector;
  vector.SetMode(mode);
  vector.SetPreambleType(WIFI_PREAMBLE_LONG);
  vector.SetChannelWidth(mode.GetModulationClass() == WIFI_MOD_CLASS_OFDM ? 20 : 22);
  const long long nanoseconds = WifiPhy::CalculateTxDuration(octets, vector, band).GetNanoSeconds();
  const unsigned long long kbps = mode.GetDataRate(vector) / 1000;
  std::printf("%s,%u,%u,%llu,%lld\n", format, speed, octets, kbps, nanoseconds);
}

int main() {
  std::puts("format,speed,octets,kbps,ns3_ns");
  /* All lengths from 14 to 110 octets, so that each symbol is filled and passed; then the lengths of data. */
  for (unsigned mbps : {6u, 9u, 12u, 18u, 24u, 36u, 48u, 54u}) {
    const WifiMode mode = OfdmPhy::GetOfdmRate(mbps * 1000000, 20);
    for (uint32_t octets = 14; octets <= 110; octets++) row("ofdm", mbps, octets, mode, WIFI_PHY_BAND_5GHZ);
    for (uint32_t octets : {130u, 530u, 1530u, 1546u, 2334u, 2342u, 2366u}) row("ofdm", mbps, octets, mode, WIFI_PHY_BAND_5GHZ);
  }
  for (unsigned half : {2u, 4u, 11u, 22u}) {
    const WifiMode mode = DsssPhy::GetDsssRate(half * 500000);
    for (uint32_t octets = 14; octets <= 110; octets++) row("dsss", half, octets, mode, WIFI_PHY_BAND_2_4GHZ);
    for (uint32_t octets : {130u, 530u, 1530u, 1546u, 2334u, 2342u, 2366u}) row("dsss", half, octets, mode, WIFI_PHY_BAND_2_4GHZ);
  }
  return 0;
}
