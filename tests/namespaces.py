"""Network namespaces that a process makes and enters, and a gateway of nft between two of them."""
import contextlib
import ctypes
import os
import socket
import struct
import subprocess

CLONE_NEWNET, SO_TIMESTAMPNS, IPV4 = 0x40000000, 35, 0x0800
LIBC = ctypes.CDLL(None, use_errno=True)


def own():
    """The namespace of this process, as an open file."""
    return os.open("/proc/self/ns/net", os.O_RDONLY)


def enter(namespace):
    if LIBC.setns(namespace, CLONE_NEWNET):
        raise OSError(ctypes.get_errno(), "setns")


def made():
    """Makes a network namespace, returns it, and stays in the one before."""
    before = own()
    if LIBC.unshare(CLONE_NEWNET):
        raise OSError(ctypes.get_errno(), "unshare")
    new = own()
    enter(before)
    return new


def run_in(namespace, *commands, keep=()):
    """Runs commands of a shell in a namespace; they may name open files of these numbers."""
    for command in commands:
        subprocess.run(command, shell=True, check=True, preexec_fn=lambda: enter(namespace), pass_fds=keep)


class Gateway:
    """The inside, where this process is, a gateway that translates, and the outside, behind its devices lan0 and wan0."""

    def __init__(self, hosts, address, remote, rules):
        self.inside, self.gateway, self.outside = own(), made(), made()
        for one, two, side in (("lan1", "lan0", self.gateway), ("wan1", "wan0", self.gateway)):
            run_in(self.inside, f"ip link add {one} type veth peer name {two}")
            run_in(self.inside, f"ip link set {two} netns /proc/self/fd/{side}", keep=[side])
        run_in(self.inside, f"ip link set wan1 netns /proc/self/fd/{self.outside}", keep=[self.outside])
        run_in(self.inside, *(f"ip addr add {host}/24 dev lan1" for host in hosts), "ip link set lan1 up",
               "ip route add default via 10.0.0.1")
        run_in(self.gateway, "ip addr add 10.0.0.1/24 dev lan0", f"ip addr add {address}/24 dev wan0", "ip link set lan0 up",
               "ip link set wan0 up", "echo 1 > /proc/sys/net/ipv4/ip_forward", f"nft '{rules}'")
        run_in(self.outside, f"ip addr add {remote}/24 dev wan1", "ip link set wan1 up")

    def socket_in(self, namespace, *kind):
        enter(namespace)
        found = socket.socket(*kind)
        enter(self.inside)
        return found


def listener(gateway, device):
    """A socket that hears all IPv4 packets of a device of the gateway, both ways."""
    hears = gateway.socket_in(gateway.gateway, socket.AF_PACKET, socket.SOCK_DGRAM, socket.htons(3))
    hears.bind((device, 3))
    hears.setsockopt(socket.SOL_SOCKET, socket.SO_RCVBUF, 1 << 22)
    hears.setsockopt(socket.SOL_SOCKET, SO_TIMESTAMPNS, 1)
    hears.setblocking(False)
    return hears


def heard(hears):
    """What a listener has heard: of each packet its time, whether the gateway sent it, and its bytes."""
    found = []
    with contextlib.suppress(BlockingIOError):
        while True:
            data, said, _, (_, protocol, kind, *_) = hears.recvmsg(65536, 128)
            seconds, rest = struct.unpack("qq", said[0][2][:16])
            found.append((protocol, seconds * 1_000_000_000 + rest, kind == socket.PACKET_OUTGOING, data))
    return [it for protocol, *it in found if protocol == IPV4]
