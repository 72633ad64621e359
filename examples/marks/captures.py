"""Writes what comes in by em0: a packet a second."""
import sys

sys.path.insert(0, "..")
from frames import ping, write_capture

write_capture("in0.pcap", [(number, ping(10, 11, number)) for number in range(1, 8)])
