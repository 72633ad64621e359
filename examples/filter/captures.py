"""Writes what comes in by em0."""
import sys

sys.path.insert(0, "..")
from frames import datagram, ping, who_has, write_capture

# A question for the address of www.example (RFC 1035).
QUESTION = b"\0\1\1\0\0\1\0\0\0\0\0\0\3www\7example\0\0\1\0\1"

write_capture(
    "in0.pcap",
    [(1, who_has(10, 11)), (2, ping(10, 11, 1)), (3, datagram(10, 11, 53, QUESTION)), (4, datagram(10, 11, 9000, b"other"))],
)
