"""What checks/allocations and checks/faults share: they run the program with a library before the C library's own.

Each of the two has such a library, a file of C beside it, which counts calls of the program and makes some of them fail.
Members of the environment say which. TELL is a descriptor to which the library writes what it counts.
"""
import argparse
import os
import shutil
import subprocess
import sys
import tempfile
from concurrent.futures import ThreadPoolExecutor

from cases import TOP, cases

PROGRAM = f"{TOP}/crates/rma_cli/out/rma_cli"
KIT_CLANG = ["/opt/rattle/toolchain/bin/clang", "-fuse-ld=lld", "-nostdlib"]


def is_short(case, most_bytes, most_logs):
    """Whether a case has no more bytes and logs than these, and logs and an output that may be had again and again."""
    return not case.fifos and not case.output and case.size() <= most_bytes and len(case.logs) <= most_logs


def compile_library(source, folder):
    library = f"{folder}/preloaded.so"
    compiler = ["cc"] if shutil.which("cc") else KIT_CLANG
    subprocess.run([*compiler, "-O1", "-shared", "-fPIC", "-fno-builtin", "-o", library, f"{TOP}/checks/{source}"], check=True)
    return library


class Runs:
    """The runs of the program on a case, with a library before the C library's own."""

    def __init__(self, case, program, library, folder):
        case.write_logs(folder)
        self.words = [program, *map(os.fsencode, case.words_with(str))]
        self.library = library
        self.folder = folder
        self.count = 0

    def run(self, told=(), **members):
        """Runs it with members of the environment; returns what it wrote, what it said and how it ended."""
        environment = {"LD_PRELOAD": self.library, **{name: str(it) for name, it in members.items()}}
        how = {"stdin": subprocess.DEVNULL, "capture_output": True, "pass_fds": told, "timeout": 60}
        self.count += 1
        ran = subprocess.run(self.words, cwd=self.folder, env=environment, **how)
        return ran.stdout, ran.stderr, ran.returncode

    def counted(self):
        """Runs it with nothing that fails; returns what run does, and what the library tells."""
        with tempfile.TemporaryFile() as told:
            got = self.run((told.fileno(),), TELL=told.fileno())
            told.seek(0)
            return got, told.read().decode()


def results(case, check, program, library):
    """The name of a case, how many runs it took, and what is wrong with one of them, or nothing."""
    with tempfile.TemporaryDirectory(prefix="rmaudit-preload-") as folder:
        runs = Runs(case, program, library, folder)
        found = check(case, runs)
        return case.name, runs.count, found


def main(name, source, check, most_bytes, most_logs):
    """Compiles a library, and makes a check of the examples and of the cases with no more bytes and logs than these: the check
    is given a case and its runs, and returns what is wrong with one of them, or nothing. Returns the exit number."""
    parser = argparse.ArgumentParser(usage=f"{name} [--program FILE] [PART]")
    parser.add_argument("--program", type=os.path.abspath, default=PROGRAM)
    parser.add_argument("part", nargs="?", default="")
    given = parser.parse_args()
    if not os.access(given.program, os.X_OK):
        sys.exit(f"{name}: the program is not built: run .ci/run first")
    chosen = [it for it in cases() if given.part in it.name and is_short(it, most_bytes, most_logs)]
    if not chosen:
        sys.exit(f"{name}: no example and no short case has {given.part} in its name")
    with tempfile.TemporaryDirectory(prefix="rmaudit-preload-") as folder:
        library = compile_library(source, folder)
        with ThreadPoolExecutor(len(os.sched_getaffinity(0))) as pool:
            done = list(pool.map(lambda it: results(it, check, given.program, library), chosen))
    failed = [(case, found) for case, _, found in done if found]
    for case, found in failed:
        print(f"{case}: {found}")
    print(f"{len(done) - len(failed)} passed, {len(failed)} failed, in {sum(runs for _, runs, _ in done):,} runs")
    return 1 if failed else 0
