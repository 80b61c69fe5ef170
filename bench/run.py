#!/usr/bin/env python3
"""Times the proved program against the best that can be written by hand, and against the floor: reading the file and counting its lines.

    bench/run.py [--set main|size|employers|ids|all] [--runs N] [--scratch FOLDER] [--proved PROGRAM] [--large-page] [--native]

Prints a Markdown table. bench/README.md says what is measured.
"""
import argparse
import os
import platform
import subprocess
import sys
import tempfile
import time

ROOT = os.path.dirname(os.path.dirname(os.path.abspath(__file__)))
BUILT = os.path.join(ROOT, "target", "bench")
BUILT_NATIVE = os.path.join(ROOT, "target", "bench-native")

# Employers, employees of each, order of the identity numbers, line end.
MAIN = [(20, 5000, "ascending", "lf"), (20, 5000, "random", "lf"), (1000, 100, "random", "lf"), (12, 8192, "random", "lf"), (12, 8192, "ascending", "lf"),
        (20, 5000, "ascending", "crlf")]
SIZE = [(employers, 100, "random", "lf") for employers in (10, 100, 300, 1000)]
# No employer has more than 8,192 identity numbers, so that is the most of all.
EMPLOYERS = [(employers, 8000 // employers, "random", "lf") for employers in (1, 10, 100, 1000)]
# There are no more than 1,024 employers.
IDS = [(min(1024, 90000 // ids), ids, "random", "lf") for ids in (1, 16, 128, 512, 1024, 2048, 4096, 8192)]
SETS = {"main": MAIN, "size": SIZE, "employers": EMPLOYERS, "ids": IDS}


def built(name, folder=BUILT):
    return os.path.join(folder, "release", name)


def build(folder=BUILT, flags=None):
    environment = dict(os.environ, RUSTFLAGS=flags) if flags else None
    words = ["cargo", "build", "--release", "--offline", "--quiet", "--target-dir", folder]
    subprocess.run(words, cwd=os.path.join(ROOT, "bench"), env=environment, check=True)


def newest(folder):
    """When the last of its files was changed, but for those that `rt` makes in folders out."""
    times = []
    for at, inside, names in os.walk(folder):
        inside[:] = [name for name in inside if name != "out"]
        times += [os.path.getmtime(os.path.join(at, name)) for name in names]
    return max(times)


def proved(name="acknowledge"):
    """A proved program for this machine: as `rt run` builds it, or, where that is not for this machine, compiled once more, and linked as the others are."""
    if platform.machine() == "x86_64":
        crate = os.path.join(ROOT, "crates", name)
        subprocess.run(["rt", "run"], cwd=crate, check=True, stdin=subprocess.DEVNULL, stdout=subprocess.DEVNULL, stderr=subprocess.DEVNULL)
        return os.path.join(crate, "out", name)
    program = os.path.join(ROOT, "target", "native", name)
    if not os.path.exists(program) or os.path.getmtime(program) < newest(os.path.join(ROOT, "crates")):
        words = [os.path.join(ROOT, "tools", "native-build"), name, program]
        subprocess.run(words, env=dict(os.environ, EXTRA="-static"), check=True)
    return program


def programs(wanted):
    """The columns of the table: a title, and the words of the command."""
    build()
    columns = [("proved", [wanted.proved or proved()]), ("by hand", [built("by-hand")])]
    if wanted.large_page:
        columns.append(("by hand, large page", [built("by-hand"), "large-page"]))
    if wanted.native:
        build(BUILT_NATIVE, "-C target-feature=+crt-static -C relocation-model=static -C target-cpu=native")
        columns.append(("by hand, native", [built("by-hand", BUILT_NATIVE)]))
    return columns + [("floor", [built("count-lines")])]


def made(case, folder):
    """The file of a case, in the page cache and on the disk, so that nobody writes it there while times are taken."""
    employers, employees, ids, end = case
    path = os.path.join(folder, "file")
    with open(path, "wb") as file:
        subprocess.run([built("generate"), str(employers), str(employees), "--ids", ids, "--end", end], stdout=file, check=True)
        os.fsync(file.fileno())
    return path


def once(words, path):
    """Wall time and processor time of one run, in seconds."""
    actions = [(os.POSIX_SPAWN_OPEN, 0, path, os.O_RDONLY, 0), (os.POSIX_SPAWN_OPEN, 1, os.devnull, os.O_WRONLY, 0)]
    began = time.perf_counter()
    child = os.posix_spawn(words[0], words, {}, file_actions=actions)
    _, status, used = os.wait4(child, 0)
    took = time.perf_counter() - began
    if status != 0:
        sys.exit("%s ended with status %d" % (words[0], status))
    return took, used.ru_utime + used.ru_stime


def best(columns, path, runs):
    """The least of each program's times. The programs take turns, so that what else the machine does falls on all of them."""
    times = [[] for _ in columns]
    for _ in range(runs):
        for (_, words), of_one in zip(columns, times):
            of_one.append(once(words, path))
    return [(min(wall for wall, _ in of_one), min(used for _, used in of_one)) for of_one in times]


def answer(words, path):
    with open(path, "rb") as file:
        return subprocess.run(words, stdin=file, stdout=subprocess.PIPE, check=True).stdout


def check_answers(columns, path):
    """All but the floor give the same frames, and accept the file."""
    frames = [answer(words, path) for title, words in columns if title != "floor"]
    if any(other != frames[0] for other in frames) or frames[0].startswith(b"FF"):
        sys.exit("the programs do not all accept the file, or not alike")


def row(case, path, columns, runs):
    lines = case[0] * (case[1] + 2) + 2
    cells = ["%d × %d, %s, %s" % case, "%.1f" % (os.path.getsize(path) / 1e6), "%d" % lines]
    times = best(columns, path, runs)
    for wall, used in times:
        cells += ["%.2f" % (wall * 1e3), "%.2f" % (used * 1e3), "%.1f" % (wall * 1e9 / lines)]
    cells += ["%.3f" % (wall / times[0][0]) for wall, _ in times[1:]]
    print("| %s |" % " | ".join(cells), flush=True)


def table(cases, columns, folder, runs):
    heads = ["file", "MB", "lines"]
    for title, _ in columns:
        heads += [title + ": ms", "cpu ms", "ns/line"]
    heads += ["%s / proved" % title for title, _ in columns[1:]]
    print("\n| %s |\n|%s" % (" | ".join(heads), " --- |" * len(heads)))
    for case in cases:
        path = made(case, folder)
        check_answers(columns, path)
        row(case, path, columns, runs)


def empty_run(columns, folder, runs):
    """What it costs to start and end each program."""
    path = os.path.join(folder, "empty")
    open(path, "wb").close()
    times = best(columns, path, runs)
    print("A run on no input, which every time below contains: %s." % ", ".join("%s %.2f ms" % (title, wall * 1e3) for (title, _), (wall, _) in zip(columns, times)))


def main():
    words = argparse.ArgumentParser()
    words.add_argument("--set", choices=[*SETS, "all"], default="main")
    words.add_argument("--runs", type=int, default=15)
    words.add_argument("--scratch", help="the folder where files are made")
    words.add_argument("--proved", help="the proved program, if it is not to be built")
    words.add_argument("--large-page", action="store_true", help="a column more: by hand, with its memory in one large page")
    words.add_argument("--native", action="store_true", help="a column more: by hand, compiled for this very processor")
    wanted = words.parse_args()
    columns = programs(wanted)
    with tempfile.TemporaryDirectory(dir=wanted.scratch) as folder:
        empty_run(columns, folder, wanted.runs)
        for name in SETS if wanted.set == "all" else [wanted.set]:
            table(SETS[name], columns, folder, wanted.runs)


if __name__ == "__main__":
    main()
