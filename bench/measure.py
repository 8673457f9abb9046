# Runs programs on generated files, and tells the processor time (user and system) and the peak of memory of each.
import os
import shutil
import subprocess
import sys
import tempfile

MIB = 1024 * 1024
TIME = shutil.which("time", path="/usr/bin")
ESBUILD = shutil.which("esbuild")


def built(path):
    if not os.path.exists(path):
        sys.exit("the program is not built: run bin/csslower once")
    return path


# Processor seconds, and the peak in MiB. A child of this process begins with the memory of this process, so that a small peak
# is told by `time`, where it is installed.
def run(words, folder):
    peak_file = os.path.join(folder, "peak")
    if TIME:
        words = [TIME, "-f", "%M", "-o", peak_file] + words
    child = subprocess.Popen(words, cwd=folder, stdout=subprocess.DEVNULL, stderr=subprocess.DEVNULL)
    _, status, usage = os.wait4(child.pid, 0)
    child.returncode = status
    if status != 0:
        sys.exit("%s failed" % " ".join(words))
    peak = usage.ru_maxrss
    if TIME:
        with open(peak_file) as file:
            peak = int(file.read().split()[-1])
    return usage.ru_utime + usage.ru_stime, peak / 1024


# The least seconds and the greatest peak of each command. They run in turn, so that what slows the machine slows all.
def best_of(commands, folder, times):
    best = [(float("inf"), 0)] * len(commands)
    for _ in range(times):
        for i, words in enumerate(commands):
            seconds, peak = run(words, folder)
            best[i] = (min(best[i][0], seconds), max(best[i][1], peak))
    return best


# Writes files of these texts, and gives for each what the program took, and where it is installed what esbuild took.
def compare(program, texts, times):
    with tempfile.TemporaryDirectory() as folder:
        commands = []
        for i, text in enumerate(texts):
            name = "text%d.css" % i
            with open(os.path.join(folder, name), "w") as file:
                file.write(text)
            commands.append([program, name])
            if ESBUILD:
                commands.append([ESBUILD, "--bundle", name])
        best = best_of(commands, folder, times)
    step = 2 if ESBUILD else 1
    return [best[i : i + step] for i in range(0, len(best), step)]


# A line of what both took.
def line(title, size, both):
    (seconds, peak), *others = both
    said = "%-14s %.3f s, %5.1f MB/s, peak %5.1f MiB" % (title, seconds, size / seconds / 1e6, peak)
    for other, other_peak in others:
        said += "; esbuild %.3f s, %5.1f MiB; ratios %.2f of the time, %.2f of the memory" % (
            other,
            other_peak,
            seconds / other,
            peak / other_peak,
        )
    return said
