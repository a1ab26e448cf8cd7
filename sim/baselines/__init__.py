"""Models to compare the machine with, over the same air, arrivals and losses (docs/SIM.md, "Baselines")."""
