"""The shortest time and the largest memory of a command's runs.

    python3 measure.py NAME FILE COMMAND..

runs the command eleven times in the file's folder and prints both, and how much of the memory is beside the file's size. The scripts
of this folder take `measure`.
"""
import os
import subprocess
import sys

# A process counts the memory of what started it as its own peak, so a small one starts each command.
LAUNCH = """
import os, sys, time
quiet = [(os.POSIX_SPAWN_OPEN, fd, "/dev/null", os.O_WRONLY, 0) for fd in (1, 2)]
start = time.perf_counter()
pid = os.posix_spawnp(sys.argv[1], sys.argv[1:], os.environ, file_actions=quiet)
_, status, usage = os.wait4(pid, 0)
print(os.waitstatus_to_exitcode(status), time.perf_counter() - start, usage.ru_maxrss, usage.ru_utime + usage.ru_stime)
"""


# The same of a command that reads a stream and tells a line for each frame: the most time of a processor between two lines, and the last
# line.
FRAMES = """
import os, subprocess, sys
run = subprocess.Popen(sys.argv[2:], stdin=open(sys.argv[1]), stdout=subprocess.PIPE)
ticks = os.sysconf("SC_CLK_TCK")
def spent():
    with open(f"/proc/{run.pid}/stat") as it:
        fields = it.read().rpartition(")")[2].split()
    return (int(fields[11]) + int(fields[12])) / ticks
longest, begun, line = 0, 0, b""
for line in run.stdout:
    now = spent()
    longest, begun = max(longest, now - begun), now
_, status, usage = os.wait4(run.pid, 0)
print(longest, usage.ru_maxrss, line.decode(), end="")
"""


def told_of(command):
    return subprocess.run([sys.executable, "-S", "-c", LAUNCH, *command], capture_output=True, text=True, check=True).stdout.split()


def launched(command):
    """The status, the milliseconds and the MiB of one run."""
    told = told_of(command)
    return int(told[0]), float(told[1]) * 1000, int(told[2]) / 1024


def processed(command):
    """The seconds of a processor and the MiB of one run."""
    told = told_of(command)
    return float(told[3]), int(told[2]) / 1024


def measure(command, status=0):
    """Milliseconds and MiB, or None where a run ends with another status."""
    runs = [launched(command) for _ in range(11)]
    if any(ended != status for ended, _, _ in runs):
        return None
    return min(ms for _, ms, _ in runs), max(mib for _, _, mib in runs)


def answers(command):
    """The most seconds of a processor of three runs, their largest memory in MiB, and the first line of what the command tells."""
    runs = [processed(command) for _ in range(3)]
    told = subprocess.run(command, capture_output=True, text=True)
    return max(seconds for seconds, _ in runs), max(mib for _, mib in runs), told.stdout.partition("\n")[0]


def framed(stream, command):
    """The most seconds of a processor between two lines, the largest memory of the run in MiB, and the last line that the command tells."""
    told = subprocess.run([sys.executable, "-S", "-c", FRAMES, stream, *command], capture_output=True, text=True, check=True).stdout
    longest, peak, last = told.split(maxsplit=2)
    return float(longest), int(peak) / 1024, last.strip()


def main(name, file, *command):
    os.chdir(os.path.dirname(os.path.abspath(file)))
    size = os.path.getsize(file)
    found = measure(command)
    if found is None:
        return f"{name}: it refuses the file"
    ms, peak = found
    return f"{name}: {ms:.0f} ms, {peak:.1f} MiB, {peak - size / 2**20:.1f} of them beside the file of {size} bytes"


if __name__ == "__main__":
    print(main(*sys.argv[1:]))
