"""Writes what comes in by the trunk em0: a frame of VLAN 10, 20 and 30 each, and one without a tag."""
import sys

sys.path.insert(0, "..")
from frames import ping, tagged, who_has, write_capture

write_capture(
    "trunk.pcap",
    [
        (1, tagged(who_has(1, 10), 10)),
        (1.5, tagged(ping(1, 20, 1), 20)),
        (2, tagged(ping(1, 30, 1), 30)),
        (2.5, ping(1, 40, 1)),
    ],
)
