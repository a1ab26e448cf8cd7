"""Compares rates and durations of HT, VHT and HE with an independent model (sim/rates.py) and with what ns-3 says."""
