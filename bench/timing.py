"""How long programs take on a file that they read, for the scripts of this folder."""
import os
import subprocess
import time


def best(command, path, written=os.devnull):
    """The shortest of five runs of a command with the first file as its standard input and the second as its output, in seconds."""
    times = []
    for _ in range(5):
        with open(path, "rb") as source, open(written, "wb") as output:
            start = time.perf_counter()
            subprocess.run(command, stdin=source, stdout=output)
            times.append(time.perf_counter() - start)
    return min(times)


def peak_memory(command, path):
    """The most memory that a run of a command with this file as its standard input took, in bytes, as GNU time tells it."""
    with open(path, "rb") as source:
        run = subprocess.run(["/usr/bin/time", "-f", "%M", *command], stdin=source, stdout=subprocess.DEVNULL, stderr=subprocess.PIPE)
    return int(run.stderr.split()[-1]) * 1024
