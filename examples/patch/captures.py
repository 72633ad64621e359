"""Writes what comes in by em0 and em1."""
import sys

sys.path.insert(0, "..")
from frames import datagram, write_capture

write_capture("in0.pcap", [(1, datagram(10, 11, 9000, b"one")), (2, datagram(10, 11, 6000, b"two"))])
write_capture("in1.pcap", [(2.5, datagram(11, 10, 9000, b"back"))])
