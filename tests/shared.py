"""What the scripts of tests/ share: places, how a script begins and ends, calls of programs, and folders to work in."""
import contextlib
import importlib.machinery
import importlib.util
import os
import pathlib
import pty
import re
import shutil
import subprocess
import sys
import tempfile

TESTS = pathlib.Path(__file__).resolve().parent
TOP = TESTS.parent
GATEWAY = TOP / "examples/gateway"
# the number of this version
VERSION = (TOP / "CHANGES").read_text().splitlines()[2]
NAME = os.path.basename(sys.argv[0])
# what runs need of the built-in configuration (docs/FORMATS.md)
BUILT_IN = b'pool = ["203.0.113.1"]\ninside = ["10.0.0.0/8"]\n'
SIDES = ("inside", "outside")
OUTPUTS = ("to-outside", "to-inside", "report")
# the files of the example by their options
INPUTS = {"config": "napt.toml", "inside": "inside.pcap", "outside": "outside.pcap"}
FILES = dict(zip(OUTPUTS, ("to-outside.pcap", "to-inside.pcap", "report.txt")))
MOST_SECONDS = 120
# what explain says of packets from outside that find no binding, with the configuration's name if there are two
WARNING = re.compile(
    r"explain: (?:under (\S+): )?(\d+) of (\d+) packets from outside are dropped as no-binding or not-ours\n(?:  .*\n){2}"
)
# what who and log say of captures that are not of the configuration's numbers
OTHER_NUMBERS = (
    "explain: the captured gateway used other numbers: {} of {} answers from outside, the first of them packet {}, do not reach the host "
    "that asked for them (to answer from the run of napt, give --as-napt)\n"
)


class Wrong(Exception):
    """Says in one line what is not as expected."""


def want(holds, complaint):
    if not holds:
        raise Wrong(complaint)


def want_none(wrong):
    """Prints each line that says what is wrong, and wants that there is none."""
    for line in wrong:
        print(line, file=sys.stderr)
    want(not wrong, "")


@contextlib.contextmanager
def named(name):
    """Reports with this name what is wrong inside."""
    try:
        yield
    except (Wrong, ValueError, LookupError, StopIteration) as wrong:
        raise Wrong(f"{name}: {type(wrong).__name__}: {wrong}") from None


def want_same(what, found, wanted):
    """Wants the same bytes, lines or items, and names the first place where they are not the same."""
    if found != wanted:
        pairs = enumerate(zip(found, wanted))
        place = next((at for at, (one, two) in pairs if one != two), min(len(found), len(wanted)))
        one, two = (it[place : place + 40] for it in (found, wanted))
        raise Wrong(f"{what} differs from {place} on: {one!r} and not {two!r}")


def called(words, **how):
    """Runs a program, by default without input and for at most two minutes, and returns its status and outputs. The
    outputs are bytes by default."""
    usual = {"capture_output": True, "timeout": MOST_SECONDS, "check": False}
    if "input" not in how:
        usual["stdin"] = subprocess.DEVNULL
    return subprocess.run([word if isinstance(word, bytes) else str(word) for word in words], **usual | how)


def ran(words, *statuses, says="", **how):
    """Runs a program, and returns its standard output. The program must end with one of the statuses, by default 0, and
    must write on standard error what the pattern matches, by default nothing."""
    answer = called(words, **how)
    said = answer.stderr if isinstance(answer.stderr, str) else answer.stderr.decode(errors="replace")
    wanted = statuses or (0,)
    if answer.returncode not in wanted or (said and not says) or not re.search(says, said):
        raise Wrong(f"{' '.join(map(str, words))}: status {answer.returncode} and not {wanted}, {said!r}")
    return answer.stdout


def want_ends(words, status, said="", output="", **how):
    """Wants a call to end with a status, and to write exactly this on standard error and on standard output."""
    answer = called(words, **{"text": True} | how)
    found = (answer.returncode, answer.stderr, answer.stdout)
    want(found == (status, said, output), f"{' '.join(map(str, words))}: {found} and not {(status, said, output)}")


def words_of(named, folder=""):
    """Returns words that give each option its file, in a folder if a folder is given."""
    return [word for option, name in named.items() for word in (f"--{option}", os.path.join(folder, name))]


def files(options, folder):
    """Returns words that give each option the file in a folder that is named as the option is."""
    return words_of(dict(zip(options, options)), folder)


def gateway_words(folder=GATEWAY):
    """Returns the words of napt and explain for the three inputs of the example."""
    return words_of(INPUTS, folder)


def content(path):
    """Returns the bytes of a file, or no bytes if the file does not exist."""
    with contextlib.suppress(FileNotFoundError):
        return pathlib.Path(path).read_bytes()
    return b""


def write_files(folder, named):
    for name, data in named.items():
        (pathlib.Path(folder) / name).write_bytes(data)


def run_over(program, given, folder, outputs=OUTPUTS, *more):
    """Runs a program with more words over its configuration and captures, as far as they are given, in files of a
    folder that are named as the options are. Returns its status, its line on standard error, and its outputs."""
    given = {name: data for name, data in given.items() if data is not None}
    write_files(folder, given)
    for name in outputs:
        (folder / name).unlink(missing_ok=True)
    answer = called([program, *files(given, folder), *files(outputs, folder), *more])
    return answer.returncode, answer.stderr.decode(), {name: content(folder / name) for name in outputs}


# this starts a program from a process that is small itself, since a child counts the memory of its parent at the fork,
# and prints the most memory that the program took
MEASURE = """
import os, sys
pid = os.posix_spawn(sys.argv[1], sys.argv[1:], os.environ)
_, status, usage = os.wait4(pid, 0)
print(usage.ru_maxrss * 1024)
sys.exit(os.waitstatus_to_exitcode(status))
"""


def measured(words):
    """Returns the words of a call that runs these words and ends as they do. Its last line is the most memory that they
    took, in bytes."""
    return [sys.executable, "-S", "-c", MEASURE, *words]


class Watched:
    """A run over a pipe, with a terminal as its standard error."""

    def __init__(self, *words):
        self.terminal, far = pty.openpty()
        self.process = subprocess.Popen(words, stdin=subprocess.PIPE, stdout=subprocess.DEVNULL, stderr=far)
        os.close(far)

    def send(self, data):
        self.process.stdin.write(data)
        self.process.stdin.flush()

    def end(self, data=b""):
        """Sends the rest, and returns the status and all that the terminal got."""
        with contextlib.suppress(BrokenPipeError):
            self.process.stdin.write(data)
            self.process.stdin.close()
        told = b""
        # when the program ends, the far end of the terminal is closed
        with contextlib.suppress(OSError):
            while True:
                told += os.read(self.terminal, 4096)
        os.close(self.terminal)
        return self.process.wait(), told.decode()


@contextlib.contextmanager
def room():
    """Makes a folder, which is removed at the end."""
    with tempfile.TemporaryDirectory(prefix=f"napt-{NAME}-", ignore_cleanup_errors=True) as folder:
        yield pathlib.Path(folder)


def path_with(folder, *tools):
    """Returns a path that has only these tools of the system, in a new folder."""
    folder.mkdir()
    for tool in tools:
        os.symlink(path_of(tool), folder / tool)
    return str(folder)


def left_out(what, reason):
    """Prints what cannot be checked here, and why, in the form that ./test reads."""
    print(f"skipped: {what} ({reason})")


def path_of(tool):
    """Returns where a tool of the system is, or None. A tool with a slash in its name is a path."""
    if "/" in tool:
        return tool if os.path.exists(tool) else None
    return shutil.which(tool, path=f"{os.environ.get('PATH', '')}:/usr/sbin:/sbin")


def is_left_out(what, *tools):
    """Returns whether something is left out because a tool is missing, and says so."""
    missing = [tool for tool in tools if not path_of(tool)]
    if missing:
        left_out(what, f"missing: {' '.join(missing)}")
    return bool(missing)


def is_no_clone():
    """Returns whether a test of the commit has to be left out because git is missing or the tree is no clone, and says
    so."""
    return is_refused("all", "git rev-parse --git-dir", cwd=TOP)


def is_refused(what, command, **how):
    """Returns whether something is left out because the system refuses a command, and says so."""
    with contextlib.suppress(FileNotFoundError):
        if called(command.split(), **how).returncode == 0:
            return False
    left_out(what, f"refused: {command}")
    return True


def loaded(path):
    loader = importlib.machinery.SourceFileLoader(f"{path.name}_script", str(path))
    module = importlib.util.module_from_spec(importlib.util.spec_from_loader(loader.name, loader))
    # classes of the module look it up there
    sys.modules[loader.name] = module
    loader.exec_module(module)
    return module


ENDS = """
If all is as expected, the last line is '{name}: ..'; otherwise lines name what is not. A line 'skipped: ..' says what
cannot be checked here. The status is 0 if all is as expected, 1 if something is not, 2 for wrong arguments, and 77 if
nothing can be checked.
"""


def help_text(names):
    """Returns what this script says of itself: its calls follow the first paragraph of its doc."""
    first, _, rest = sys.modules["__main__"].__doc__.partition("\n\n")
    usage = f"usage: {' '.join([f'tests/{NAME}', *names])}\n       tests/{NAME} --help\n"
    return "\n".join([first.rstrip("\n") + "\n", usage, *([rest] if rest else [])]) + ENDS.format(name=NAME)


def refuse_words(complaint):
    print(f"{complaint} (see tests/{NAME} --help)", file=sys.stderr)
    sys.exit(2)


def run_script(main, *names):
    """Runs a script, and ends as its help says. `main` takes the paths of the programs that the words name, and after
    them other words if the last name is in brackets. It returns the last line, or None if it left everything out. It
    raises what is wrong; if several things are wrong, it prints them and then raises an empty line."""
    words, programs = sys.argv[1:], [name for name in names if name[0] != "["]
    if words in (["--help"], ["-h"]):
        print(help_text(names), end="")
        sys.exit(0)
    if len(words) < len(programs) or (len(words) > len(programs) and programs == [*names]):
        refuse_words(" ".join(["usage:", f"tests/{NAME}", *names]))
    paths = [os.path.realpath(word) for word in words[: len(programs)]]
    for path in paths:
        if not os.access(path, os.X_OK):
            refuse_words(f"tests/{NAME}: {path} is missing")
    try:
        line = main(*paths, *words[len(programs) :])
    except (Wrong, OSError, ValueError, LookupError, subprocess.SubprocessError) as wrong:
        kind = "" if isinstance(wrong, Wrong) else f"{type(wrong).__name__}: "
        if str(wrong):
            print(f"{NAME}: {kind}{wrong}", file=sys.stderr)
        sys.exit(1)
    if line is None:
        sys.exit(77)
    print(f"{NAME}: {line}")
    sys.exit(0)
