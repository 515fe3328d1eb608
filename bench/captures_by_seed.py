#!/usr/bin/env python3
"""Writes inside.pcap, outside.pcap and napt.toml into a folder, by a seed: the same words give the same bytes.

Hosts of 10.0.0.0/8 send UDP packets of some flows to a remote; a part of the packets are replies from outside, and a part are
sent by one host to another host's external endpoint (hairpins). At its external address each flow has a port of its own, so its
external number is that port, and its binding lives, since the packets are a microsecond apart.
"""
import argparse
import random
import struct
import sys

POOL = [0xCB007101 + place for place in range(16)]  # 203.0.113.1 and on
REMOTE = 0xC6336407  # 198.51.100.7
HOSTS = 0x0A000000 + 2  # 10.0.0.2
FIRST_PORT = 1024
HEADER = struct.pack("<IHHIIII", 0xA1B23C4D, 2, 4, 0, 0, 262144, 101)


def folded(total):
    while total >> 16:
        total = (total & 0xFFFF) + (total >> 16)
    return total


def words_of(address):
    return (address >> 16) + (address & 0xFFFF)


def datagram(source, source_port, destination, destination_port, payload, payload_sum):
    """A UDP datagram with right checksums."""
    length = 8 + len(payload)
    header = 0x4500 + 20 + length + 0x4011 + words_of(source) + words_of(destination)
    transport = words_of(source) + words_of(destination) + 17 + 2 * length + source_port + destination_port + payload_sum
    return (
        struct.pack(">BBHIBBHII", 0x45, 0, 20 + length, 0, 64, 17, ~folded(header) & 0xFFFF, source, destination)
        + struct.pack(">HHHH", source_port, destination_port, length, ~folded(transport) & 0xFFFF or 0xFFFF)
        + payload
    )


def parsed():
    words = argparse.ArgumentParser(description=__doc__, formatter_class=argparse.RawDescriptionHelpFormatter)
    words.add_argument("folder")
    words.add_argument("--seed", type=int, default=1)
    words.add_argument("--packets", type=int, default=1_000_000)
    words.add_argument("--hosts", type=int, default=48, help="a multiple of the addresses")
    words.add_argument("--flows", type=int, default=100, help="at most 60,000 for each address")
    words.add_argument("--replies", type=float, default=0.4, help="part of the packets that are replies")
    words.add_argument("--hairpins", type=float, default=0.05, help="part of the packets that are hairpins")
    words.add_argument("--addresses", type=int, default=4, help="external addresses, 1 to 16")
    words.add_argument("--ring", type=int, default=64, help="slots of a ring")
    words.add_argument("--bytes", type=int, default=100, help="length of a packet")
    given = words.parse_args()
    if given.hosts % given.addresses:
        words.error("--hosts must be a multiple of --addresses")
    if given.flows > 60_000 * given.addresses:
        words.error("at most 60,000 --flows for each address")
    return given


def main():
    words = parsed()
    draw = random.Random(words.seed)
    payload = draw.randbytes(words.bytes - 28)
    even = payload + b"\0" * (len(payload) % 2)
    payload_sum = sum(struct.unpack(">%dH" % (len(even) // 2), even))
    flows = []
    for flow in range(words.flows):
        host = HOSTS + flow % words.hosts
        flows.append((host, FIRST_PORT + flow // words.addresses, POOL[host % words.addresses]))
    files = {side: open(f"{words.folder}/{side}.pcap", "wb") for side in ("inside", "outside")}
    for file in files.values():
        file.write(HEADER)
    for k in range(words.packets):
        host, port, external = flows[k] if k < len(flows) else draw.choice(flows)
        kind = 1.0 if k < len(flows) else draw.random()
        if kind < words.replies:
            side, packet = "outside", datagram(REMOTE, 53, external, port, payload, payload_sum)
        elif kind < words.replies + words.hairpins:
            _, other_port, other = draw.choice(flows)
            side, packet = "inside", datagram(host, port, other, other_port, payload, payload_sum)
        else:
            side, packet = "inside", datagram(host, port, REMOTE, 53, payload, payload_sum)
        time = 1_000_000_000 + 1000 * k
        header = struct.pack("<IIII", time // 1_000_000_000, time % 1_000_000_000, len(packet), len(packet))
        files[side].write(header + packet)
    for file in files.values():
        file.close()
    with open(f"{words.folder}/napt.toml", "w") as out:
        addresses = ", ".join(f'"203.0.113.{place + 1}"' for place in range(words.addresses))
        out.write(f'pool = [{addresses}]\ninside = ["10.0.0.0/8"]\nring = {words.ring}\n')


sys.exit(main())
