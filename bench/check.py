#!/usr/bin/env python3
"""The program `by-hand` against the tests' reference, byte for byte: a program that answers otherwise is no measure.

    bench/check.py             a fixed seed, and one more that is drawn and printed
    bench/check.py --seed N    a fixed seed, and N

It runs the cases that the proved programs are held against (tests/program_cases.py), files of many employees with a few bytes changed, the examples, and
inputs that cannot be read.
"""
import os
import random
import socket
import subprocess
import sys
import tempfile

import run

sys.path.insert(0, os.path.join(run.ROOT, "tests"))
import program_answers
import program_cases
from program_cases import PIECES, answers, compare
from reference_rs import acknowledged, cargo, reference

FIXED_SEED, FIXED_CASES, DRAWN_CASES, LONG_CASES, PAIRS = 1, 22000, 4000, 4, 1000
# Files of so many employers and employees, and how many cases of each. The last are longer than what one read brings.
CHANGED = [(1, 60, 700), (4, 25, 700), (4, 1500, 40)]
# One in so many cases is also read in pieces.
IN_PIECES = 10


def build():
    run.build()
    cargo("build").check_returncode()


def spawned(stdin, words=()):
    """What `by-hand` answers. It writes less than a pipe holds."""
    ours, its = os.pipe()
    silent = (os.POSIX_SPAWN_OPEN, 2, os.devnull, os.O_WRONLY, 0)
    actions = [(os.POSIX_SPAWN_DUP2, stdin, 0), (os.POSIX_SPAWN_DUP2, its, 1), silent]
    program = run.built("by-hand")
    child = os.posix_spawn(program, [program, *words], {}, file_actions=actions)
    os.close(its)
    with open(ours, "rb") as pipe:
        answer = pipe.read()
    status = os.waitstatus_to_exitcode(os.waitpid(child, 0)[1])
    return answer if status == 0 else b"status %d" % status


def answered(case, words=()):
    stdin = os.memfd_create("case")
    os.write(stdin, case)
    os.lseek(stdin, 0, os.SEEK_SET)
    answer = spawned(stdin, words)
    os.close(stdin)
    return answer


def fed(case, piece):
    """The same when each read brings one piece: a socket of packets gives a read no more than one."""
    ours, its = socket.socketpair(socket.AF_UNIX, socket.SOCK_SEQPACKET)
    program = run.built("by-hand")
    running = subprocess.Popen([program], stdin=its, stdout=subprocess.PIPE)
    its.close()
    at = 0
    try:
        while at < len(case):
            at += ours.send(case[at:at + piece])
    except ConnectionError:
        pass  # it has answered, and reads no more
    ours.close()
    return running.communicate()[0]


def inputs(pipe):
    """The cases that the reference writes, each with the size of the reads. The third number of a head is the format's, here always that of PFML."""
    while head := pipe.readline():
        length, piece, _ = map(int, head.split())
        yield pipe.read(length), piece


def each_answer(pipe):
    """Some are answered twice, and have to be answered alike."""
    for place, (case, piece) in enumerate(inputs(pipe)):
        answer = answered(case)
        if place % IN_PIECES == 0 and len(case) < 20000 and fed(case, piece) != answer:
            answer = b"otherwise in pieces of %d" % piece
        yield answer


def through_cases(*arguments):
    with tempfile.TemporaryDirectory() as folder:
        fifo, expected = os.path.join(folder, "inputs"), os.path.join(folder, "expected")
        os.mkfifo(fifo)
        maker = subprocess.Popen(reference(*arguments, fifo, expected), stdout=subprocess.DEVNULL)
        with open(fifo, "rb") as pipe:
            got = list(each_answer(pipe))
        if maker.wait() != 0:
            sys.exit("the reference failed: %s" % (arguments,))
        with open(expected, "rb") as told:
            compare(" ".join(map(str, arguments)), got, answers(told.read()))


def copied(draw, case):
    """An identity number, or some columns, of one line in another."""
    lines = (len(case) - 7) // 291
    one, other = draw.randrange(lines), draw.randrange(lines)
    first, last = draw.choice([(1, 10), (1, 10), (0, 1), (10, 42), (63, 77), (0, 290)])
    source = case[7 + 291 * one:]
    case[7 + 291 * other + first:7 + 291 * other + last] = source[first:last]


def with_zeros(draw, case):
    """Some employees have applied for their number: that breaks no edit."""
    for _ in range(draw.randrange(30)):
        line = 7 + 291 * draw.randrange((len(case) - 7) // 291)
        if case[line:line + 1] == b"S":
            case[line + 1:line + 10] = b"000000000"


def changed(draw, case):
    """A large file with one or two places changed, or none."""
    case = bytearray(case)
    if draw.random() < 0.3:
        with_zeros(draw, case)
    for _ in range(draw.choice([0, 1, 1, 1, 2])):
        if draw.random() < 0.4:
            copied(draw, case)
        else:
            byte = draw.choice([draw.randrange(256), draw.choice(b"0123456789"), draw.choice(b" -'aZsetf\r\n")])
            case[draw.randrange(len(case))] = byte
    return bytes(case)


def through_changes(employers, employees, count, seed):
    draw = random.Random(seed)
    words = [run.built("generate"), str(employers), str(employees), "--ids", draw.choice(["ascending", "random"]), "--seed", str(seed)]
    file = subprocess.run(words, stdout=subprocess.PIPE, check=True).stdout
    got, expected = [], []
    for _ in range(count):
        case = changed(draw, file)
        got.append(answered(case, draw.choice([(), ("large-page",)])) if draw.random() < 0.8 else fed(case, draw.choice(PIECES[4:])))
        expected.append(acknowledged(case))
    compare("%d × %d with changes of seed %d" % (employers, employees, seed), got, expected)


def examples():
    got, expected = [], []
    for name in sorted(name[:-4] for name in os.listdir(program_answers.EXAMPLES) if name.endswith(".txt")):
        path = os.path.join(program_answers.EXAMPLES, name)
        quarter = program_answers.EARLIER.get(name, program_answers.QUARTER)
        got.append(answered(quarter.encode() + b"\n" + program_answers.read(path + ".txt")))
        expected.append(program_answers.read(path + ".frames"))
    compare("the examples", got, expected)


def unread():
    """No frame, and status 0, as the proved program has it."""
    folder = os.open(program_answers.EXAMPLES, os.O_RDONLY)
    compare("a directory as input", [spawned(folder)], [b""])
    os.close(folder)


def main(arguments):
    build()
    drawn = int(arguments[1]) if arguments[:1] == ["--seed"] else random.SystemRandom().randrange(1 << 32)
    print("seeds: %d, and drawn: %d" % (FIXED_SEED, drawn))
    examples()
    unread()
    through_cases("cases", FIXED_SEED, FIXED_CASES)
    through_cases("cases", drawn, DRAWN_CASES)
    through_cases("pairs", drawn, PAIRS)
    through_cases("needed")
    through_cases("long", drawn, LONG_CASES)
    for employers, employees, count in CHANGED:
        through_changes(employers, employees, count, drawn)
    print("%d passed, %d failed" % (program_cases.passed, program_cases.failed))
    return 1 if program_cases.failed else 0


if __name__ == "__main__":
    sys.exit(main(sys.argv[1:]))
