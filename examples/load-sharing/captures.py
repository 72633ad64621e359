"""Writes what comes in by em0, and an answer by em2."""
import sys

sys.path.insert(0, "..")
from frames import ping, write_capture

write_capture("in0.pcap", [(number, ping(1, 2, number)) for number in range(1, 10)])
write_capture("in2.pcap", [(2.5, ping(2, 1, 1))])
