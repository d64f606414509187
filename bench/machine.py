"""The machine that figures are of: its processor, kernel, load and disk, a loop of Python that tells its speed, and what one sync of the disk takes."""
import datetime
import os
import platform
import re
import statistics
import subprocess
import tempfile
import time

PAGE, SYNCS = 4096, 60
ADDITIONS = 20_000_000


def processor():
    with open("/proc/cpuinfo", encoding="utf-8") as table:
        found = re.search(r"^model name\s*: (.*)$", table.read(), re.M)
    return re.sub(r"\s+", " ", found[1]).strip() if found else platform.machine()


def memory():
    """In whole GiB."""
    with open("/proc/meminfo", encoding="ascii") as table:
        return int(re.search(r"MemTotal:\s+(\d+)", table.read())[1]) // 2**20


def disk(folder):
    """The file system and the device that a folder is on."""
    done = subprocess.run(["df", "--output=fstype,source", folder], capture_output=True, text=True, check=True)
    kind, source = done.stdout.splitlines()[1].split()
    return f"{kind} on {source}"


def python_loop():
    """The seconds of a loop of 20 million additions, by the Python that runs this."""
    begun, total = time.perf_counter(), 0
    for number in range(ADDITIONS):
        total += number
    return time.perf_counter() - begun


def sync_ms(folder):
    """The milliseconds of one fdatasync behind a write of 4 KiB into a file that has its room: the median of some."""
    with tempfile.TemporaryFile(dir=folder) as file:
        file.write(bytes(PAGE * SYNCS))
        file.flush()
        os.fsync(file.fileno())
        taken = []
        for at in range(SYNCS):
            begun = time.perf_counter()
            os.pwrite(file.fileno(), os.urandom(PAGE), PAGE * at)
            os.fdatasync(file.fileno())
            taken.append(time.perf_counter() - begun)
    return round(statistics.median(taken) * 1e3, 3)


def of(folder):
    """What a table says of the machine. The load is that of the minute before."""
    return {
        "date": datetime.datetime.now(datetime.timezone.utc).strftime("%Y-%m-%d %H:%M UTC"),
        "processor": processor(),
        "processors": os.cpu_count(),
        "memory_gib": memory(),
        "kernel": platform.release(),
        "disk": disk(folder),
        "load": round(os.getloadavg()[0], 1),
        "python_loop_seconds": round(python_loop(), 2),
        "sync_ms": sync_ms(folder),
    }
