"""Builds, feeds and times the programs of the benchmarks: the proved `fluidd sequence` and the hand-written baseline."""
import fcntl
import filecmp
import os
import re
import shutil
import struct
import subprocess
import sys
import termios
import time
from pathlib import Path

TOP = Path(__file__).resolve().parent.parent
OUT = TOP / "bench" / "out"
BASELINE = TOP / "bench" / "baseline"
DEBIAN_CRATES = Path("/usr/share/cargo/registry")


class Program:
    """One of the programs: its name, and the words that start it."""

    def __init__(self, name, words):
        self.name = name
        self.words = [str(word) for word in words]


class Run:
    """What one run took: processor seconds, user and system together, and the most memory that it held, in bytes."""

    def __init__(self, seconds, memory):
        self.seconds = seconds
        self.memory = memory


def say(text):
    print(text, file=sys.stderr, flush=True)


def built(crate, words):
    """The proved program of a crate with these words, which is built where it is missing."""
    program = TOP / "crates" / crate / "out" / crate
    if not program.exists():
        say(f"bench: proving and building {crate}, which takes some minutes")
        subprocess.run(["rt", "run", "--", *words], cwd=TOP / "crates" / crate, stdin=subprocess.DEVNULL,
                       stdout=sys.stderr, check=True)
    return Program(crate, [program, *words])


def as_shipped():
    """From here on programs run with what bin/fluidd sets for the C library, where the caller hasn't set it."""
    set_there = re.search(r"GLIBC_TUNABLES:-([^}]+)}", (TOP / "bin" / "fluidd").read_text())
    os.environ.setdefault("GLIBC_TUNABLES", set_there[1])


def proved():
    """The proved program that gives a verdict line for each record."""
    return built("fluidd", ["sequence"])


def baseline():
    """The hand-written program, built from Debian's crates; nothing where these or cargo are missing."""
    if not shutil.which("cargo"):
        say("bench: there is no cargo, so the baseline is left out")
        return None
    if not any(DEBIAN_CRATES.glob("serde_json-*")):
        say("bench: Debian's librust-serde-json-dev is not installed, so the baseline is left out")
        return None
    say("bench: building the baseline")
    subprocess.run(["cargo", "build", "--quiet", "--release", "--offline",
                    "--config", 'source.crates-io.replace-with="debian"',
                    "--config", f'source.debian.directory="{DEBIAN_CRATES}"'], cwd=BASELINE, check=True)
    return Program("baseline", [BASELINE / "target" / "release" / "baseline"])


def programs():
    """Both programs, the baseline only where it can be built."""
    return [program for program in (proved(), baseline()) if program]


def records(clients, operations, contents, numbered=False, behind=None):
    """A file of raw records, written anew; with joins as a lane numbers them where that is asked for, and with references at most
    `behind` messages behind the order."""
    OUT.mkdir(exist_ok=True)
    name = f"{clients}-clients-{operations}-operations-{contents}-bytes"
    path = OUT / f"{name}{'-numbered' if numbered else ''}{'' if behind is None else f'-{behind}-behind'}.jsonl"
    with path.open("wb") as out:
        subprocess.run([TOP / "bench" / "records", "--clients", str(clients), "--operations", str(operations),
                        "--contents", str(contents), *(["--numbered"] if numbered else []),
                        *([] if behind is None else ["--behind", str(behind)])], stdout=out, check=True)
    return path


def summaries(records, waiting, keys=50):
    """A file of raw records with summaries, of which so many wait for their reports, and with proposals of so many keys, written
    anew."""
    OUT.mkdir(exist_ok=True)
    path = OUT / f"summaries-{records}-records-{waiting}-waiting-{keys}-keys.jsonl"
    with path.open("wb") as out:
        subprocess.run([TOP / "bench" / "summaries", "--records", str(records), "--waiting", str(waiting), "--keys", str(keys)],
                       stdout=out, check=True)
    return path


def run(program, source, written):
    """Runs a program once over the file `source`; what it writes goes to the file `written`.

    GNU time tells the memory, since a child that Python starts would begin with Python's own."""
    figures = OUT / "figures"
    OUT.mkdir(exist_ok=True)
    with source.open("rb") as into, written.open("wb") as out:
        subprocess.run(["/usr/bin/time", "-f", "%U %S %M", "-o", figures, *program.words], stdin=into, stdout=out, check=True)
    user, system, kilobytes = figures.read_text().split()
    return Run(float(user) + float(system), int(kilobytes) * 1024)


def instructions(program, source):
    """How many instructions a program takes over the file `source`, by callgrind."""
    counts = OUT / "counts"
    command = ["valgrind", "-q", "--tool=callgrind", f"--callgrind-out-file={counts}", *program.words]
    with source.open("rb") as into:
        subprocess.run(command, stdin=into, stdout=subprocess.DEVNULL, check=True)
    return int(re.search(r"^(?:summary|totals): (\d+)", counts.read_text(), re.M)[1])


def peak(program, *words):
    """The most memory, in bytes, that a program holds over records that come by a pipe from one of the generators, since they
    may be many."""
    figures = OUT / "figures"
    OUT.mkdir(exist_ok=True)
    words = [TOP / "bench" / words[0], *[str(word) for word in words[1:]]]
    with subprocess.Popen(words, stdout=subprocess.PIPE) as source:
        subprocess.run(["/usr/bin/time", "-f", "%M", "-o", figures, *program.words], stdin=source.stdout,
                       stdout=subprocess.DEVNULL, check=True)
    return int(figures.read_text()) * 1024


def written_by(program):
    return OUT / f"written-by-{program.name}"


def compare(both, source):
    """Stops where the programs don't write the same bytes for this input."""
    for program in both:
        run(program, source, written_by(program))
    first = written_by(both[0])
    for program in both[1:]:
        if not filecmp.cmp(first, written_by(program), shallow=False):
            sys.exit(f"bench: {both[0].name} and {program.name} differ on {source.name}: see {OUT}")


def least(both, sources, runs):
    """For each input the least time and the most memory of each program, by its name, over so many rounds. A round runs the
    programs in turn over every input, so that what else the machine does meets all of them alike."""
    taken = [{program.name: [] for program in both} for _ in sources]
    for _ in range(runs):
        for source, by_name in zip(sources, taken):
            for program in both:
                by_name[program.name].append(run(program, source, written_by(program)))
    return [{name: Run(min(r.seconds for r in rs), max(r.memory for r in rs)) for name, rs in by_name.items()} for by_name in taken]


def machine():
    """The processor that this runs on."""
    found = re.search(r"^model name\s*:\s*(.*)$", Path("/proc/cpuinfo").read_text(), re.M)
    return f"{found.group(1) if found else 'unknown processor'}, {os.cpu_count()} processors"


class Handed:
    """A program that is handed its input a part at a time, so that what each part costs is told without the others.

    A part is over where nothing is left in the pipe and the program sleeps. The cost is the processor time of the process meanwhile, by
    the system's count in nanoseconds, or where `counting` the instructions, by callgrind: these don't depend on what else the machine
    does."""

    def __init__(self, program, folder, counting=False):
        self.program = program
        self.counting = counting
        self.written = Path(folder) / "written"
        self.counts = Path(folder) / "counts"
        valgrind = ["valgrind", "-q", "--tool=callgrind", "--instr-atstart=no", f"--callgrind-out-file={self.counts}"] if counting else []
        self.process = subprocess.Popen([*valgrind, *program.words], stdin=subprocess.PIPE, stdout=self.written.open("wb"))

    def hand(self, part):
        """Hands this part over, and waits until it is over."""
        pipe = self.process.stdin
        pipe.write(part)
        pipe.flush()
        while True:
            left = struct.unpack("i", fcntl.ioctl(pipe, termios.FIONREAD, struct.pack("i", 0)))[0]
            state = Path(f"/proc/{self.process.pid}/stat").read_text().rpartition(")")[2].split()[0]
            if state == "Z":
                sys.exit(f"bench: {self.program.name} ended early: {self.last()}")
            if left == 0 and state == "S":
                return
            time.sleep(0.0002)

    def cost(self, part):
        """What this part costs: microseconds, or thousands of instructions."""
        if not self.counting:
            before = self._nanoseconds()
            self.hand(part)
            return (self._nanoseconds() - before) / 1e3
        self._count()
        self.hand(part)
        return self._counted()

    def cost_of_end(self):
        """What the program still costs when its input ends."""
        if self.counting:
            self._count()
        before = self._nanoseconds()
        self.process.stdin.close()
        _, status, used = os.wait4(self.process.pid, 0)
        self.process.returncode = os.waitstatus_to_exitcode(status)
        if self.process.returncode != 0:
            sys.exit(f"bench: {self.program.name} ended with {self.process.returncode}: {self.last()}")
        return self._sum(self.counts) if self.counting else (used.ru_utime + used.ru_stime) * 1e6 - before / 1e3

    def last(self):
        """The last line that it wrote."""
        return (self.written.read_bytes().splitlines() or [b""])[-1].decode()

    def _nanoseconds(self):
        return int(Path(f"/proc/{self.process.pid}/schedstat").read_text().split()[0])

    def _count(self):
        """Counts from here on."""
        self._control("--instr=on")
        self._control("--zero")

    def _counted(self):
        """What was counted since then."""
        before = set(self.counts.parent.iterdir())
        self._control("--dump")
        dumped = set(self.counts.parent.iterdir()) - before
        return self._sum(*dumped)

    def _control(self, word):
        subprocess.run(["callgrind_control", word, str(self.process.pid)], stdout=subprocess.DEVNULL, stderr=subprocess.DEVNULL, check=True)

    def _sum(self, file):
        return int(re.search(r"^(?:totals|summary): (\d+)", file.read_text(), re.M)[1]) / 1e3
