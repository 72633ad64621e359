"""Writes what comes in by em0, from a provider, and by em1, from a customer."""
import sys

sys.path.insert(0, "..")
from frames import ping, tagged, write_capture

SERVICE = 0x88A8


def twice(inner, service, customer):
    return tagged(tagged(inner, customer), service, SERVICE)


write_capture(
    "in0.pcap",
    [
        (1, twice(ping(1, 2, 1), 100, 10)),
        (2, twice(ping(1, 2, 2), 100, 11)),
        (3, twice(ping(1, 2, 3), 101, 10)),
        (4, tagged(ping(1, 2, 4), 10)),
    ],
)
write_capture("in1.pcap", [(5, ping(2, 1, 1))])
