"""The programs that are compared with the second one: where they stand, and one run of them.

    python3 second/built.py      makes the archive with the C call, target/staticlib/libchecker.a
"""

import os
import shutil
import subprocess
import sys

ROOT = os.path.dirname(os.path.dirname(os.path.abspath(__file__)))
CRATES = os.path.join(ROOT, "crates")
TARGET = os.path.join(ROOT, "target")
FOLDER = os.path.join(TARGET, "compare")    # what the comparison writes
HARNESS = os.path.join(FOLDER, "harness")
EXAMPLE = os.path.join(FOLDER, "example")
ARCHIVE = os.path.join(TARGET, "staticlib", "libchecker.a")
PATIENCE = 120      # seconds after which a run has no end

GCC = ("gcc", "-fsanitize=address", "-g", "-O1")


class NotBuilt(Exception):
    """A program that is not there, with what the build said."""


def made(crate, *names):
    """The path of a file that rt has made for a crate."""
    return os.path.join(CRATES, crate, "out", *names)


def program(name):
    """The path of a program that rt has built."""
    return made(name, name)


def output_of(command, data=b""):
    """How the command ended, and its standard output. A run that is not over in time is ended."""
    try:
        done = subprocess.run(command, input=data, stdout=subprocess.PIPE,
                              stderr=subprocess.PIPE, timeout=PATIENCE, check=False)
    except subprocess.TimeoutExpired as late:
        return f"no end in {PATIENCE} seconds", late.stdout or b""
    if done.returncode == 0:
        return "ended well", done.stdout
    return f"ended with {done.returncode}: {done.stderr[:2000].decode(errors='replace')}", done.stdout


def lines_of(command, data):
    """How the command ended, and the lines of its standard output."""
    end, output = output_of(command, data)
    return end, output.decode(errors="replace").splitlines()


def build(command, folder=ROOT):
    """Runs a command that builds something, quietly unless it fails; what it wrote."""
    done = subprocess.run(command, cwd=folder, stdin=subprocess.DEVNULL, stdout=subprocess.PIPE,
                          stderr=subprocess.STDOUT, check=False)
    said = done.stdout.decode(errors="replace")
    if done.returncode != 0:
        raise NotBuilt(f"{' '.join(command)}:\n{said}")
    return said


def crates_below(crate):
    """The crates that a crate stands on, as crates.txt lists them."""
    with open(os.path.join(ROOT, "crates.txt"), encoding="utf-8") as file:
        for line in file:
            names, _, below = line.partition("#")[0].partition(":")
            if names.split()[:1] == [crate]:
                return below.split()
    return []


def library(crate):
    """The folder of a crate's library, once it is built."""
    return made(crate, "rlib", f"{crate}.rlib")


def left_by_the_gate(crate):
    """Whether `rt ci` left the crate's library, which has no stamp then: `rt lib` would prove that crate once more."""
    return os.path.isdir(library(crate)) and not os.path.exists(made(crate, "rlib", "stamp"))


def compile_over(libraries, archive):
    """Proves and compiles the static library over libraries that the gate has proved."""
    kit = os.path.dirname(build(["rt", "doc"]).strip())
    command = [os.path.join(kit, "bin", "rattle"), "build", "--crate-name", "checker_c", "src/lib.rt",
               "--crate-type", "staticlib", "--antt-project", f"{kit}/rattle/logic/antt-project.json",
               "--logic-built", f"{kit}/logic_built", "--toolchain", f"{kit}/toolchain", "-L", f"dependency={kit}/rlibs"]
    for name in ("core", "std"):
        command += ["--extern", f"{name}={kit}/rlibs/{name}.rlib"]
    for crate in libraries:
        command += ["--extern", f"{crate}={library(crate)}"]
    build([*command, "-o", archive], os.path.join(CRATES, "checker_c"))


def build_archive():
    """Makes the archive with the C call: after `rt ci` over the libraries that it left, else by `rt lib`."""
    archive, libraries = made("checker_c", "libchecker_c.a"), crates_below("checker_c")
    if all(map(left_by_the_gate, libraries)):
        os.makedirs(os.path.dirname(archive), exist_ok=True)
        compile_over(libraries, archive)
    else:
        build(["rt", "lib"], os.path.join(CRATES, "checker_c"))
    os.makedirs(os.path.dirname(ARCHIVE), exist_ok=True)
    shutil.copyfile(archive, ARCHIVE)


def build_for_c():
    """Makes the archive with the C call, the harness that calls it, and the panel's example."""
    build_archive()
    os.makedirs(FOLDER, exist_ok=True)
    for program_built, *source in ((HARNESS, "second", "harness.c"), (EXAMPLE, "panel", "example.c")):
        build([*GCC, "-I", os.path.join(ROOT, "panel"), "-o", program_built,
               os.path.join(ROOT, *source), ARCHIVE])


def need(name):
    """Builds a program where it is not there: `rt run` proves it, builds it and runs it, here on no input."""
    if not os.path.exists(program(name)):
        build(["rt", "run"], os.path.join(CRATES, name))


if __name__ == "__main__":
    try:
        build_archive()
    except NotBuilt as why:
        sys.exit(str(why))
