"""Ethernet frames and captures, with nothing but Python's standard library.

A capture is a file of pcap 2.4 in nanoseconds, as tcpdump reads it: write_capture("in0.pcap", [(seconds, frame), ..]).
"""
import struct
import sys

EVERYBODY = "ff:ff:ff:ff:ff:ff"


def address(text):
    return bytes(int(it, 16) for it in text.split(":"))


def host(number):
    """The address of one of the examples' hosts."""
    return f"02:00:00:00:00:{number:02x}"


def frame(to, source, ethertype, payload=b""):
    return address(to) + address(source) + struct.pack(">H", ethertype) + payload


def tagged(inner, vlan, kind=0x8100, priority=0):
    """The frame with a tag after its addresses (IEEE 802.1Q; kind 0x88a8 is that of IEEE 802.1ad)."""
    return inner[:12] + struct.pack(">HH", kind, priority << 13 | vlan) + inner[12:]


def checksum(data):
    if len(data) % 2:
        data += b"\0"
    sum = 0
    for high, low in zip(data[::2], data[1::2]):
        sum += high << 8 | low
    while sum >> 16:
        sum = (sum & 0xFFFF) + (sum >> 16)
    return ~sum & 0xFFFF


def ipv4(source, to, protocol, payload):
    """An IPv4 packet between two hosts of 10.0.0.0/24."""
    head = struct.pack(">BBHHHBBH4B4B", 0x45, 0, 20 + len(payload), 0, 0, 64, protocol, 0, 10, 0, 0, source, 10, 0, 0, to)
    return head[:10] + struct.pack(">H", checksum(head)) + head[12:] + payload


def ping(source, to, number):
    """A frame with an ICMP echo request."""
    icmp = struct.pack(">BBHHH", 8, 0, 0, 1, number) + b"nuktaye"
    icmp = icmp[:2] + struct.pack(">H", checksum(icmp)) + icmp[4:]
    return frame(host(to), host(source), 0x0800, ipv4(source, to, 1, icmp))


def datagram(source, to, port, data):
    """A frame with a UDP datagram to a port. Its checksum is left out, as UDP over IPv4 allows."""
    udp = struct.pack(">HHHH", 40000, port, 8 + len(data), 0) + data
    return frame(host(to), host(source), 0x0800, ipv4(source, to, 17, udp))


def who_has(source, to):
    """A frame with an ARP request, to everybody."""
    arp = struct.pack(">HHBBH", 1, 0x0800, 6, 4, 1)
    arp += address(host(source)) + bytes([10, 0, 0, source]) + bytes(6) + bytes([10, 0, 0, to])
    return frame(EVERYBODY, host(source), 0x0806, arp)


def write_capture(name, packets):
    with open(name, "wb") as file:
        file.write(struct.pack("<IHHiIII", 0xA1B23C4D, 2, 4, 0, 0, 262144, 1))
        for seconds, data in packets:
            nanoseconds = round(seconds * 1_000_000_000)
            file.write(struct.pack("<IIII", *divmod(nanoseconds, 1_000_000_000), len(data), len(data)))
            file.write(data)


def words(data):
    """A line that tells of a frame: where it goes, where it comes from, its tags, its type and its length."""
    kind, at, tags = int.from_bytes(data[12:14], "big"), 14, ""
    while kind in (0x8100, 0x88A8):
        tags += f", vlan {int.from_bytes(data[at:at + 2], 'big') & 0xFFF}"
        kind, at = int.from_bytes(data[at + 2:at + 4], "big"), at + 4
    return f"{data[6:12].hex(':')} > {data[:6].hex(':')}{tags}, ethertype 0x{kind:04x}, length {len(data)}"


def show_capture(name):
    """Prints a line for each frame of a capture that ngrun wrote."""
    with open(name, "rb") as file:
        data = file.read()
    at = 24
    while at < len(data):
        length = int.from_bytes(data[at + 8:at + 12], "little")
        print(words(data[at + 16:at + 16 + length]))
        at += 16 + length


if __name__ == "__main__":
    for argument in sys.argv[1:]:
        show_capture(argument)
