"""The program stream between pipes."""
import os
import select
import subprocess

from hostile_inputs import captures
from shared import want

HEADER = bytes(captures.header())
# each pipe gets an answer within this number of seconds
MOST_SECONDS = 20
CAPTURES = ("to-outside", "to-inside")


def record(time, data=b""):
    return bytes(captures.record(time=time, packet=data))


class Between:
    """The program between pipes, two of them its captures: each record that goes in is sent at once."""

    def __init__(self, program, *sides, words=(), more=()):
        self.ins = {side: os.pipe() for side in sides}
        self.outs = {name: os.pipe() for name in (*CAPTURES, *more)}
        far = [reads for reads, _ in self.ins.values()] + [writes for _, writes in self.outs.values()]
        named = [word for side, (reads, _) in self.ins.items() for word in (f"--{side}", f"/dev/fd/{reads}")]
        named += [word for name, (_, writes) in self.outs.items() for word in (f"--{name}", f"/dev/fd/{writes}")]
        self.program = subprocess.Popen([program, *words, *named], pass_fds=far)
        for end in far:
            os.close(end)
        for side in sides:
            self.send(side, HEADER)
        for name in CAPTURES:
            want(self.read(name, 24) == HEADER, f"no header {name}")

    def send(self, side, data):
        os.write(self.ins[side][1], data)

    def read(self, name, length):
        """The next bytes of an output, once they come."""
        data = b""
        while len(data) < length:
            want(select.select([self.outs[name][0]], [], [], MOST_SECONDS)[0], f"no answer {name} within {MOST_SECONDS} s")
            more = os.read(self.outs[name][0], length - len(data))
            want(more, f"the end of what goes {name}")
            data += more
        return data

    def there(self, name):
        """What an output has now."""
        data = b""
        while select.select([self.outs[name][0]], [], [], 0)[0]:
            more = os.read(self.outs[name][0], 65536)
            if not more:
                break
            data += more
        return data

    def answered(self, side, time, packet):
        """The next record to a side is this packet, with its time of arrival."""
        want(self.read(f"to-{side}", 16 + len(packet)) == record(time, packet), f"another answer to the {side} at {time} ns")

    def close(self):
        """Ends what goes in, and waits for the program's end."""
        for _, writes in self.ins.values():
            os.close(writes)
        want(self.program.wait(MOST_SECONDS) == 0, f"status {self.program.returncode}")

    def end(self):
        """The same where nothing more comes out."""
        self.close()
        for name, (reads, _) in self.outs.items():
            want(os.read(reads, 1) == b"", f"more went {name}")
            os.close(reads)
