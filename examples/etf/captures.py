"""Writes what comes in by em0 and em1."""
import sys

sys.path.insert(0, "..")
from frames import frame, host, ping, who_has, write_capture

ipv6 = frame(host(11), host(10), 0x86DD, bytes(40))
write_capture("in0.pcap", [(1, who_has(10, 11)), (2, ping(10, 11, 1)), (3, ipv6), (4, ping(10, 11, 2))])
write_capture("in1.pcap", [(2.5, ping(11, 10, 1)), (2.6, who_has(11, 10))])
