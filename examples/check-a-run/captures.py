"""Writes what comes in by em0."""
import sys

sys.path.insert(0, "..")
from frames import ping, who_has, write_capture

write_capture("in0.pcap", [(1, who_has(10, 11)), (1.2, ping(10, 11, 1)), (1.4, ping(10, 11, 2))])
