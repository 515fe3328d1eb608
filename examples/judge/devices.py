"""Devices under test: napt in virtual time, and a gateway between two interfaces."""
import contextlib
import itertools
import os
import pathlib
import select
import socket
import struct
import subprocess
import tempfile
import time

from judging.packets import SIDES
from reading.captures import SECOND, Capture, write_capture

ARP, IPV4, ALL_FRAMES = 0x0806, 0x0800, 3
ASKS, ANSWERS = 1, 2
ARP_BODY = struct.Struct("!HHBBH6sI6sI")
SO_TIMESTAMPNS = 35
EVERYBODY = b"\xff" * 6
# a packet that has not left after this number of seconds never will: the machine may be busy
LATE = 0.2


class Device:
    """A device that packets are sent through, and the first and the last of its inside hosts. It keeps what arrives
    and what leaves, in time, of each side."""

    is_ended = False

    def __init__(self, folder, hosts):
        self.folder, self.hosts, self.kept = folder, hosts, {side: [] for side in SIDES}

    def host(self, number):
        """Returns an inside host; of a few hosts one that has several numbers."""
        first, last = self.hosts
        return first + (number - 1) % (last - first + 1)

    def close(self):
        """Writes the capture of each side."""
        for side, records in self.kept.items():
            write_capture(self.folder / f"{side}.pcap", sorted(records, key=lambda it: it[0]))


class Napt(Device):
    """napt in virtual time: each packet is a run of its own that goes on from the state of the one before."""

    def __init__(self, folder, hosts, program, configuration):
        super().__init__(folder, hosts)
        self.call, self.time = [program, "--config", configuration, "--report", os.devnull], 1_700_000_000 * SECOND
        # in memory where that can be: the state is told to the disk each time
        self.room = tempfile.TemporaryDirectory(prefix="probe-", dir="/dev/shm" if os.path.isdir("/dev/shm") else None)

    def now(self):
        return self.time

    def wait_until(self, at):
        self.time = max(self.time, at)

    def send(self, side, packet, found):
        self.time += SECOND // 1000
        self.kept[side].append((self.time, packet))
        room = pathlib.Path(self.room.name)
        words = ["--save", room / "state", *(["--resume", room / "state"] if (room / "state").exists() else [])]
        for name in SIDES:
            write_capture(room / f"in-{name}", [(self.time, packet)] * (name == side))
            words += [f"--{name}", room / f"in-{name}", f"--to-{name}", room / f"out-{name}"]
        subprocess.run(self.call + words, check=True, stderr=subprocess.DEVNULL)
        answer = None
        for name in SIDES:
            for at, data, *_ in Capture(str(room / f"out-{name}")).frames():
                self.kept[name].append((at + 1, data))
                answer = answer or found and found(name, data)
        return answer

    def close(self):
        super().close()
        self.room.cleanup()


class Port:
    """An interface of the probe, on which it has every address but the gateway's."""

    def __init__(self, name):
        self.socket = socket.socket(socket.AF_PACKET, socket.SOCK_RAW, socket.htons(ALL_FRAMES))
        try:
            self.socket.bind((name, ALL_FRAMES))
        except OSError as error:
            raise OSError(f"{name}: {error.strerror}") from error
        self.socket.setsockopt(socket.SOL_SOCKET, socket.SO_RCVBUF, 1 << 22)
        self.socket.setsockopt(socket.SOL_SOCKET, SO_TIMESTAMPNS, 1)
        self.mac, self.gateway = self.socket.getsockname()[4], EVERYBODY

    def send(self, to, kind, data):
        self.socket.send(to + self.mac + struct.pack("!H", kind) + data)

    def receive(self):
        """Returns when a frame came, and the frame; or nothing where the probe sent it itself."""
        frame, said, _, address = self.socket.recvmsg(65536, 128)
        stamps = [struct.unpack("qq", data[:16]) for _, kind, data in said if kind == SO_TIMESTAMPNS]
        seconds, rest = (stamps or [divmod(time.time_ns(), SECOND)])[0]
        return None if address[2] == socket.PACKET_OUTGOING else (seconds * SECOND + rest, frame)

    def ask(self, address, sender):
        """Asks by ARP who has an address."""
        self.send(EVERYBODY, ARP, ARP_BODY.pack(1, IPV4, 6, 4, ASKS, self.mac, sender, bytes(6), address))

    def take_arp(self, frame):
        """Answers for every host, and learns the gateway's address from what it says."""
        _, _, _, _, operation, mac, sender, _, wanted = ARP_BODY.unpack_from(frame, 14)
        if operation == ANSWERS:
            self.gateway = mac
        elif operation == ASKS and sender != wanted:
            self.send(frame[6:12], ARP, ARP_BODY.pack(1, IPV4, 6, 4, ANSWERS, self.mac, wanted, mac, sender))


class Live(Device):
    """A gateway between two interfaces of this machine, and its inside address. It hears of each host by ARP: that in
    user mode has to."""

    def __init__(self, folder, hosts, names, gateway):
        super().__init__(folder, hosts)
        self.ports = {side: Port(name) for side, name in zip(SIDES, names)}
        for host in range(hosts[0], hosts[1] + 1):
            self.ports["inside"].ask(gateway, host)
            self.receive(0.002, None)
        for _ in itertools.takewhile(lambda _: self.ports["inside"].gateway == EVERYBODY, range(15)):
            self.ports["inside"].ask(gateway, self.host(1))
            self.receive(0.2, None)

    def now(self):
        return time.time_ns()

    def wait_until(self, at):
        while (left := (at - time.time_ns()) / SECOND) > 0:
            self.receive(left, None)

    def receive(self, seconds, found):
        """Takes what comes for some seconds, or until it is found."""
        end = time.monotonic() + seconds
        while True:
            left = max(end - time.monotonic(), 0)
            ready = select.select([it.socket for it in self.ports.values()], [], [], left)[0]
            for side, port in self.ports.items():
                if port.socket in ready and (answer := self.take(side, port, found)):
                    return answer
            if not left:
                return None

    def take(self, side, port, found):
        """Takes a frame of a side, and returns what is found in it."""
        try:
            at, frame = port.receive() or (0, b"")
        except OSError:
            # the gateway has ended, and with it the link
            self.is_ended = True
            time.sleep(0.01)
            return None
        kind = int.from_bytes(frame[12:14], "big")
        if kind == ARP and len(frame) >= 42:
            port.take_arp(frame)
        elif kind == IPV4:
            port.gateway = frame[6:12] if side == "outside" else port.gateway
            self.kept[side].append((at, frame[14:]))
            return found and found(side, frame[14:])
        return None

    def send(self, side, packet, found):
        self.receive(0, None)
        self.kept[side].append((time.time_ns(), packet))
        with contextlib.suppress(OSError):
            self.ports[side].send(self.ports[side].gateway, IPV4, packet)
        return self.receive(LATE if found else 0.01, found)

    def close(self):
        self.receive(0.5, None)
        super().close()
