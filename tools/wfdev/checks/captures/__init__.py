"""Has `wf frames` list captures and `wf replay --pcap` write them, and compares each with an independent model."""
