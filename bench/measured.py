"""An `ebs session` under measurement: the time of each call, its processor time, and the peak memory."""
import ctypes
import dataclasses
import os
import pathlib
import subprocess
import sys
import tempfile
import time

sys.dont_write_bytecode = True
sys.path.insert(0, str(pathlib.Path(__file__).resolve().parent.parent / "examples"))
from ebs_client import Session


@dataclasses.dataclass
class Cost:
    """Seconds from the request's first byte to the answer's last, and seconds that the program was on a processor."""
    elapsed: float = 0.0
    processor: float = 0.0

    def __add__(self, other):
        return Cost(self.elapsed + other.elapsed, self.processor + other.processor)

    def __sub__(self, other):
        return Cost(self.elapsed - other.elapsed, self.processor - other.processor)

    def __truediv__(self, count):
        return Cost(self.elapsed / count, self.processor / count)


def best(costs):
    """The least of each time."""
    costs = list(costs)
    return Cost(min(cost.elapsed for cost in costs), min(cost.processor for cost in costs))


class MeasuredSession(Session):
    def __init__(self, program, words=("session",), folder=None):
        super().__init__(program, words=words, folder=folder)
        self.clock = processor_clock(self.process.pid)

    def measure(self, wanted, *request):
        """The answer to a request, which must have the wanted status, and its cost."""
        processor = time.clock_gettime(self.clock)
        begin = time.perf_counter()
        answer = self.ask(wanted, *request)
        elapsed = time.perf_counter() - begin
        return answer, Cost(elapsed, time.clock_gettime(self.clock) - processor)

    def peak(self):
        """The most bytes of memory that the program has had."""
        with open(f"/proc/{self.process.pid}/status") as file:
            lines = dict(line.split(":", 1) for line in file)
        return int(lines["VmHWM"].split()[0]) * 1024


def processor_clock(process):
    """The clock of the processor time of a process (POSIX, clock_getcpuclockid)."""
    clock = ctypes.c_int()
    if ctypes.CDLL(None).clock_getcpuclockid(process, ctypes.byref(clock)) != 0:
        raise OSError("the process has no clock")
    return clock.value


@dataclasses.dataclass
class Spent:
    """Seconds on a processor and the most bytes of memory of a whole run, and what it wrote."""
    seconds: float
    peak: int
    written: bytes


def run_whole(words, given=b"", folder=None, around=None):
    """What a program takes from its start to its end, which must be one with status 0."""
    with tempfile.TemporaryFile() as written:
        with subprocess.Popen(words, stdin=subprocess.PIPE, stdout=written, cwd=folder, env=around) as child:
            child.stdin.write(given)
            child.stdin.close()
            _, status, used = os.wait4(child.pid, 0)
            child.returncode = os.waitstatus_to_exitcode(status)
        if child.returncode:
            sys.exit(f"{' '.join(map(str, words))}: status {child.returncode}")
        written.seek(0)
        return Spent(used.ru_utime + used.ru_stime, used.ru_maxrss * 1024, written.read())


def play(program, steps):
    """The same of a program that plays steps, a line each."""
    return run_whole([program], "".join(f"{step}\n" for step in steps).encode())
