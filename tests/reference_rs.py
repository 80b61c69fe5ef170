"""The reference in Rust, tests/reference-rs, as the tests build and call it."""
import os
import subprocess

ROOT = os.path.dirname(os.path.dirname(os.path.abspath(__file__)))
SOURCE = os.path.join(ROOT, "tests", "reference-rs")
BUILT = os.path.join(ROOT, "target", "reference-rs")


def cargo(command):
    words = ["cargo", command, "--release", "--offline", "--quiet", "--target-dir", BUILT]
    return subprocess.run(words, cwd=SOURCE, capture_output=True, text=True)


def reference(*arguments):
    """The command that runs it."""
    return [os.path.join(BUILT, "release", "reference"), *map(str, arguments)]


def acknowledged(given, *flags):
    """Its acknowledgement of an input; `flags` name the format."""
    return subprocess.run(reference("ack", *flags), input=given, stdout=subprocess.PIPE).stdout
