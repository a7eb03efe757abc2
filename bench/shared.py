"""What the longer checks share: the program, its devices in folders of memory, what it shows, and the count of what passed."""
import concurrent.futures
import datetime
import os
import re
import shutil
import subprocess
import sys
import tempfile
import time

TOP = os.path.dirname(os.path.dirname(os.path.realpath(__file__)))
PROGRAM = os.path.join(TOP, "release", "tacho")
MEMORY = "/dev/shm" if os.access("/dev/shm", os.W_OK) else None
NAMES = ["unit.img", "card-a.img", "card-b.img"]
NEW = [
    ["format", "unit", "13", "M-AB-1", "VIN00000000000001", "90"],
    ["format", "a", "17", "0123456789ABCDEF", "Doe", "John"],
    ["format", "b", "17", "FEDCBA9876543210", "Roe", "Jane"],
]
LINE = re.compile(r"(\d+-\d+-\d+) (\d+):(\d+)-(\d+):(\d+) (.*)")
MINUTES_OF_DAY = 1440


def run(words, folder, source=b"", before=(), seconds=600, **more):
    """Runs the program behind the words `before`: its status, what it printed, and its line on standard error."""
    done = subprocess.run([*before, PROGRAM, *words], cwd=folder, input=source, capture_output=True, check=False, timeout=seconds, **more)
    return done.returncode, done.stdout, done.stderr.decode(errors="replace").strip()


# Runs the program behind a pipe's number, and writes into the pipe what it took. It is a small process of its own, since Linux counts
# the memory of the process that starts a program as the program's.
LAUNCH = """
import os, sys, time
before = time.perf_counter()
child = os.fork()
if child == 0:
    os.execv(sys.argv[2], sys.argv[2:])
os.waitid(os.P_PID, child, os.WEXITED | os.WNOWAIT)  # its counts are there until it is waited for
seconds = time.perf_counter() - before
calls = dict(line.split(": ") for line in open(f"/proc/{child}/io").read().splitlines())
_, status, usage = os.wait4(child, 0)
told = [seconds, os.waitstatus_to_exitcode(status), calls["syscr"], calls["syscw"], usage.ru_utime, usage.ru_stime, usage.ru_maxrss]
os.write(int(sys.argv[1]), " ".join(map(str, told)).encode())
"""


class Measured:
    """A run of a program: its status, what it printed, the seconds that it took and those of the processor, its peak memory in KiB, and how
    many calls that read and that write it made, as Linux counts them."""

    def __init__(self, program, words, folder, source):
        reading, writing = os.pipe()
        with tempfile.TemporaryFile(dir=MEMORY) as held, tempfile.TemporaryFile(dir=MEMORY) as printed:
            held.write(source)
            held.seek(0)
            launch = [sys.executable, "-I", "-S", "-c", LAUNCH, str(writing), program, *words]
            subprocess.run(launch, stdin=held, stdout=printed, cwd=folder, pass_fds=[writing], check=True)
            printed.seek(0)
            self.printed = printed.read()
        with open(writing, "wb"), open(reading, "rb") as told:
            seconds, status, reads, writes, user, system, peak = told.read1().split()
        self.seconds, self.user, self.system = float(seconds), float(user), float(system)
        self.status, self.reads, self.writes, self.peak = int(status), int(reads), int(writes), int(peak)


def room():
    """A folder in memory that goes away."""
    return tempfile.TemporaryDirectory(dir=MEMORY)


def new_devices(folder):
    """Makes unit and cards new there."""
    for words in NEW:
        status, _, line = run(words, folder)
        if status != 0:
            sys.exit(f"{' '.join(words)}: {line}")


def devices(folder):
    """What the file of each device has, or None."""
    return [open(path, "rb").read() if os.path.isfile(path) else None for path in (os.path.join(folder, name) for name in NAMES)]


def put(folder, held):
    """Gives the folder these devices."""
    for name, image in zip(NAMES, held):
        path = os.path.join(folder, name)
        if image is not None:
            with open(path, "wb") as file:
                file.write(image)
        elif os.path.exists(path):
            os.remove(path)


def minutes_of(text):
    """The minutes that a view shows, in order, each with its number since 1970 and its words."""
    found = []
    for line in text.decode().splitlines():
        date, hour, minute, last_hour, last_minute, words = LINE.fullmatch(line).groups()
        day = (datetime.date.fromisoformat(date) - datetime.date(1970, 1, 1)).days * MINUTES_OF_DAY
        first, last = 60 * int(hour) + int(minute), 60 * int(last_hour) + int(last_minute)
        found += [(day + number, words) for number in range(first, last + 1)]
    return found


def date_of(minute):
    """The date of a minute."""
    return (datetime.date(1970, 1, 1) + datetime.timedelta(days=minute // MINUTES_OF_DAY)).isoformat()


def shown(folder, words):
    """The minutes that `view` shows of what `download` or `card` prints there, or why there are none."""
    status, file, line = run(words, folder)
    if status != 0:
        return f"{' '.join(words)}: status {status}, {line}"
    status, text, line = run(["view"], folder, file)
    return f"view: status {status}, {line}" if status != 0 else minutes_of(text)


class Count:
    """How many passed, and how many did not."""

    def __init__(self):
        self.passed = self.failed = 0

    def note(self, name, wrong):
        """Takes note of one; `wrong` says what is not as it is to be, or is empty."""
        if wrong:
            self.failed += 1
            print(f"{name}: {wrong}", flush=True)
        else:
            self.passed += 1

    def all(self, check, cases):
        """Checks all cases side by side; each check gives a name, and what is wrong."""
        with concurrent.futures.ThreadPoolExecutor(os.cpu_count()) as pool:
            for name, wrong in pool.map(lambda case: check(*case), cases):
                self.note(name, wrong)

    def end(self):
        """Prints the last line, and ends."""
        print(f"{self.passed} passed, {self.failed} failed")
        sys.exit(1 if self.failed else 0)


def take_program(words):
    """Takes another program where one is named, and gives the other words."""
    global PROGRAM
    if words and os.access(words[0], os.X_OK):
        PROGRAM = os.path.realpath(words[0])
        words = words[1:]
    return words


def need(tool):
    """Ends where a tool is not there."""
    if shutil.which(tool) is None:
        sys.exit(f"{os.path.basename(sys.argv[0])}: the command {tool} is needed, and is not in PATH")
