"""The static library and the C programs over it, as the tests build them."""
import os
import re
import shutil
import subprocess

ROOT = os.path.dirname(os.path.dirname(os.path.abspath(__file__)))
NAME = "wage"
WAGE = os.path.join(ROOT, "crates", NAME)
LIBRARY = os.path.join(WAGE, "out", "lib%s.a" % NAME)
BUILD, RUN = (os.path.join(ROOT, "tools", name) for name in ("build-c", "run-program"))


def files_of(path):
    """The file, or the files of the folder; not those in folders out, where `rt` keeps what it makes."""
    if os.path.isfile(path):
        yield path
    for folder, inside, names in os.walk(path):
        inside[:] = [name for name in inside if name != "out"]
        yield from (os.path.join(folder, name) for name in names)


def newest(*paths):
    """When the last of these files and of those in these folders was changed."""
    return max(os.path.getmtime(file) for path in paths for file in files_of(path))


def run(what, *command, folder=ROOT):
    done = subprocess.run(command, cwd=folder, capture_output=True, text=True)
    if done.returncode != 0:
        print((done.stdout + done.stderr)[-3000:])
        raise RuntimeError("%s: exit status %s" % (what, done.returncode))


def uses(name, listed):
    """The crates of crates.txt below a crate."""
    found = []
    for library in listed[name].split():
        if library in listed:
            found += [it for it in (*uses(library, listed), library) if it not in found]
    return found


def rlib(name):
    """Where `rt` keeps the library that it builds of a crate."""
    return os.path.join(ROOT, "crates", name, "out", "rlib", name + ".rlib")


def over_what_is_proved():
    """Proves and builds the library over the crates below as `rt ci` has just proved and left them; `rt lib` would prove each of them once more. Whether it
    could: a crate that changed since, or that is not there, is for `rt lib`."""
    with open(os.path.join(ROOT, "crates.txt"), encoding="utf-8") as file:
        listed = dict(re.findall(r"^(\w+)(?: staticlib)?:(.*)", file.read(), re.M))
    below = uses(NAME, listed)
    for name in below:
        if not os.path.isdir(rlib(name)) or os.path.getmtime(rlib(name)) < newest(os.path.join(ROOT, "crates", name)):
            return False
    kit = os.path.dirname(os.path.dirname(os.path.realpath(shutil.which("rt"))))
    words = [os.path.join(kit, "bin", "rattle"), "build", "--crate-name", NAME, "src/lib.rt", "--crate-type", "staticlib"]
    words += ["-L", "dependency=%s/rlibs" % kit]
    for name in below:
        words += ["-L", "dependency=" + os.path.dirname(rlib(name))]
    for name in ("std", *listed[NAME].split()):
        words += ["--extern", "%s=%s" % (name, rlib(name) if name in listed else "%s/rlibs/%s.rlib" % (kit, name))]
    words += ["--antt-project", "%s/rattle/logic/antt-project.json" % kit, "--logic-built", "%s/logic_built" % kit, "--jobs", "2"]
    words += ["--toolchain", "%s/toolchain" % kit, "--backend", "llvm", "-o", LIBRARY]
    os.makedirs(os.path.dirname(LIBRARY), exist_ok=True)
    return subprocess.run(words, cwd=WAGE, capture_output=True).returncode == 0


def library():
    """Proves and builds the library, unless nothing changed since it was."""
    made_of = (os.path.join(ROOT, "crates"), os.path.join(ROOT, "crates.txt"))
    if not os.path.exists(LIBRARY) or os.path.getmtime(LIBRARY) < newest(*made_of):
        if not over_what_is_proved():
            run("rt lib, in crates/wage", "rt", "lib", folder=WAGE)
    return LIBRARY


def program(*source):
    """The command that runs the program of a C source, given by its path in the repository."""
    library()
    path = os.path.join(ROOT, "target", "c", os.path.splitext(source[-1])[0])
    run("tools/build-c %s" % os.path.join(*source), BUILD, os.path.join(ROOT, *source), path)
    return [RUN, path]
