"""Runs the program over a case, in a folder of its own."""

import dataclasses
import os
import signal

from shared import content, write_files

# a run's processor time, and its time in all, which is longer where other programs hold it up
MOST_SECONDS = 5
MOST_SECONDS_IN_ALL = 60
STANDARD, FAULT = "standard-output", "standard-error"


@dataclasses.dataclass
class Outcome:
    """How a run ended: its status, or the number of the signal that ended it with a minus sign, and what it wrote."""

    status: int
    is_late: bool
    standard: bytes
    fault: bytes
    made: dict


def ended(program, words, standard_input, most_seconds=MOST_SECONDS):
    """Runs the program in this folder until it ends or its time is over: (status, is it late)."""
    pid = os.posix_spawn(
        program,
        [program, *words],
        {},
        file_actions=(
            (os.POSIX_SPAWN_OPEN, 0, standard_input, os.O_RDONLY, 0),
            (os.POSIX_SPAWN_OPEN, 1, STANDARD, os.O_WRONLY | os.O_CREAT | os.O_TRUNC, 0o600),
            (os.POSIX_SPAWN_OPEN, 2, FAULT, os.O_WRONLY | os.O_CREAT | os.O_TRUNC, 0o600),
        ),
    )
    late = []

    def stop(_number, _frame):
        late.append(True)
        os.kill(pid, signal.SIGKILL)

    signal.signal(signal.SIGALRM, stop)
    signal.setitimer(signal.ITIMER_REAL, MOST_SECONDS_IN_ALL)
    _, status, usage = os.wait4(pid, 0)
    signal.setitimer(signal.ITIMER_REAL, 0)
    is_late = bool(late) or usage.ru_utime + usage.ru_stime > most_seconds
    return os.waitstatus_to_exitcode(status), is_late


def run(program, case):
    """Runs the case in this folder, which is empty before and after."""
    write_files(".", case.files)
    status, is_late = ended(program, case.words, case.standard_input)
    standard, fault = content(STANDARD), content(FAULT)
    made = {}
    for name in os.listdir("."):
        data = content(name)
        if name not in (STANDARD, FAULT) and data != case.files.get(name):
            made[name] = data
        os.remove(name)
    return Outcome(status, is_late, standard, fault, made)
