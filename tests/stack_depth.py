"""How much stack each export can take, on every path: read off the machine code of the library, x86-64, by `objdump`.

A function takes what it pushes and what it subtracts from the stack pointer, and the most that a function it calls takes. None may call itself, directly or
through others, nor a function that is not named in the code. What the C library's functions take is not known here.
"""
import re
import subprocess


def disassembled(library):
    """The lines of `objdump`, or none where it cannot read x86-64."""
    done = subprocess.run(["objdump", "-dr", "--no-show-raw-insn", library], capture_output=True, text=True)
    return done.stdout.splitlines() if done.returncode == 0 and "elf64-x86-64" in done.stdout else []


def functions(lines):
    """Of each function its own bytes of stack, a return address among them, and the functions that it calls or jumps to."""
    found, name, jumps = {}, None, None
    for line in lines:
        begins = re.match(r"[0-9a-f]+ <(.+)>:$", line)
        if begins:
            name, marked = begins.group(1), False
            found[name] = {"own": 8, "calls": set()}
            continue
        if name is None:
            continue
        # A large frame is taken piece by piece, in a loop, down to a mark in r11; the mark counts, and not the piece, which is taken right after it.
        mark, taken = (re.search(r"\tsub\s+\$0x([0-9a-f]+),%%%s" % register, line) for register in ("r11", "rsp"))
        if mark or taken and not marked:
            found[name]["own"] += int((mark or taken).group(1), 16)
        if mark or taken:
            marked = bool(mark)
        if re.search(r"\tpush\b", line):
            found[name]["own"] += 8
        if re.search(r"\tcall\s+\*", line) or re.search(r"\tsub\s+%\w+,%rsp", line):
            raise ValueError("%s: %s" % (name, line.strip()))
        # A relocation stands after the instruction that it belongs to. A call without one is of nothing that can be told.
        target = re.search(r"R_X86_64_PLT32\s+(?:\.text\.)?([^\s+-]+)", line)
        if target and jumps:
            found[name]["calls"].add(target.group(1))
        elif jumps == "call":
            raise ValueError("%s calls what is not named, before %s" % (name, line.strip()))
        jumps = re.search(r"\t(call|jmp)\b", line)
        jumps = jumps and jumps.group(1)
    return found


def depth(name, found, above=()):
    """The most that a call of this function takes."""
    if name in above:
        raise ValueError("recursion: %s" % " ".join((*above, name)))
    if name not in found:
        return 0
    return found[name]["own"] + max((depth(called, found, (*above, name)) for called in found[name]["calls"]), default=0)


def outside(found):
    """What is called and is not in the library."""
    return sorted({called for function in found.values() for called in function["calls"]} - set(found))
