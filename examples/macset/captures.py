"""Writes what comes in by em0, and an answer by em1."""
import sys

sys.path.insert(0, "..")
from frames import ping, write_capture

write_capture("in0.pcap", [(1, ping(10, 20, 1)), (2, ping(11, 20, 1)), (3, ping(12, 20, 1)), (4, ping(10, 20, 2))])
write_capture("in1.pcap", [(1.5, ping(20, 10, 1))])
