"""What the machine has room for."""
import os

GROUP = "/sys/fs/cgroup"


def number_in(file):
    """Returns the number that a file of the system begins with, or none."""
    try:
        with open(file, encoding="utf-8") as it:
            word = it.read().split()[0]
    except (OSError, IndexError):
        return None
    return int(word) if word.isdigit() else None


def cached():
    """Returns the bytes that the process's group holds for files that nobody has used of late: these are given up where memory is wanted."""
    try:
        with open(f"{GROUP}/memory.stat", encoding="utf-8") as lines:
            return next((int(it.split()[1]) for it in lines if it.startswith("inactive_file ")), 0)
    except OSError:
        return 0


def free_memory():
    """Returns the bytes of memory that are free, under the limit of the process's group too."""
    with open("/proc/meminfo", encoding="utf-8") as lines:
        free = next(1024 * int(it.split()[1]) for it in lines if it.startswith("MemAvailable:"))
    limit, held = number_in(f"{GROUP}/memory.max"), number_in(f"{GROUP}/memory.current")
    return free if limit is None or held is None else min(free, max(limit - held + cached(), 0))


def room_for(size):
    """Returns how many processes of so many bytes there is room for, a processor for each; one at least."""
    return max(1, min(len(os.sched_getaffinity(0)), free_memory() // size))
