"""Processes that end when this one is ended, and locks that a second call waits for."""
import fcntl
import os
import signal
import subprocess
import time

ENDING = (signal.SIGTERM, signal.SIGINT, signal.SIGHUP)
POLL_SECONDS = 0.1
_noted = []


class Ended(Exception):
    """A signal asks this process to end."""

    def __init__(self, number):
        super().__init__(signal.Signals(number).name)
        self.number = number


def note_signals():
    """From now on a signal that would end this process is noted, and `go_on` raises: so no folder or process is forgotten half made."""
    for number in ENDING:
        if signal.getsignal(number) is not signal.SIG_IGN:
            signal.signal(number, lambda noted, _: _noted.append(noted))


def go_on():
    """Raises Ended where a signal was noted."""
    if _noted:
        raise Ended(_noted[0])


def end_by(number):
    """Ends this process by a signal, once all is cleared."""
    signal.signal(number, signal.SIG_DFL)
    os.kill(os.getpid(), number)


def session_of(pid):
    """Returns the session of a process that is there and has not ended."""
    try:
        with open(f"/proc/{pid}/stat", encoding="utf-8", errors="replace") as text:
            state, _, _, session = text.read().rpartition(")")[2].split()[:4]
    except (OSError, ValueError):
        return None
    return None if state in "ZX" else int(session)


class Session:
    """A command in a session of its own, with all that it starts, whatever process groups those make."""

    def __init__(self, words, log, **how):
        self.began = time.time()
        self.process = subprocess.Popen(
            words, stdin=subprocess.DEVNULL, stdout=log, stderr=log, start_new_session=True, **how
        )

    def has_ended(self):
        """Returns whether the command itself has ended. Its number stays its own until `end`."""
        return os.waitid(os.P_PID, self.process.pid, os.WEXITED | os.WNOHANG | os.WNOWAIT) is not None

    def end(self):
        """Kills what is left of the command and of its session, waits until nothing is, and returns the command's status."""
        while left := [int(it) for it in os.listdir("/proc") if it.isdigit() and session_of(it) == self.process.pid]:
            for pid in left:
                try:
                    os.kill(pid, signal.SIGKILL)
                except ProcessLookupError:
                    pass
            time.sleep(POLL_SECONDS / 5)
        return self.process.wait()


def run(words, log, **how):
    """Runs a command to its end and returns its status; it ends with this process."""
    session = Session(words, log, **how)
    try:
        while not session.has_ended():
            go_on()
            time.sleep(POLL_SECONDS)
    finally:
        status = session.end()
    return status


class Lock:
    """Keeps other calls out of a folder for as long as this process lives, or until it is closed."""

    def __init__(self, folder, on_wait):
        """Waits until no other call holds the folder; on_wait is called once where it has to wait."""
        self.handle = os.open(folder, os.O_RDONLY)
        waits = False
        while not self.is_taken():
            if not waits:
                on_wait()
            waits = True
            go_on()
            time.sleep(POLL_SECONDS)

    def is_taken(self):
        try:
            fcntl.flock(self.handle, fcntl.LOCK_EX | fcntl.LOCK_NB)
        except BlockingIOError:
            return False
        except OSError:
            # some file systems have no locks
            pass
        return True

    def __enter__(self):
        return self

    def __exit__(self, *_):
        os.close(self.handle)
