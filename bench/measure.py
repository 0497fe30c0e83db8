"""Runs a program on a file and tells its status, the least processor time, the least wall time and the greatest resident size of some
runs: bench/measure.py RUNS FILE PROGRAM WORD..
"""

import os
import sys
import time


def run(file, words):
    start = time.perf_counter()
    pid = os.fork()
    if not pid:
        os.dup2(os.open(file, os.O_RDONLY), 0)
        os.dup2(os.open(os.devnull, os.O_WRONLY), 1)
        os.execv(words[0], words)
    _, status, usage = os.wait4(pid, 0)
    wall = time.perf_counter() - start
    return os.waitstatus_to_exitcode(status), usage.ru_utime + usage.ru_stime, wall, usage.ru_maxrss / 1024


runs = [run(sys.argv[2], sys.argv[3:]) for _ in range(int(sys.argv[1]))]
statuses, processor, wall, size = zip(*runs)
print(f"status {max(statuses)}, {min(processor):.4f} s of processor time, {min(wall):.4f} s, {max(size):.0f} MiB")
