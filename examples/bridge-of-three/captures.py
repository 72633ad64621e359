"""Writes what comes in by em0, em1 and em2."""
import sys

sys.path.insert(0, "..")
from frames import ping, who_has, write_capture

write_capture("in0.pcap", [(1, who_has(10, 12)), (1.2, ping(10, 12, 1)), (4, ping(10, 11, 1))])
write_capture("in1.pcap", [(2, who_has(11, 10)), (3, ping(11, 12, 1))])
write_capture("in2.pcap", [(1.1, ping(12, 10, 1)), (5, ping(12, 11, 1))])
