"""The checks of the script rmaudit: what it runs, and with which words.

Most of them run the script in a small repository of its own, whose program and whose rt are scripts that print their
words. The last ones run the sources of this repository, unproved.
"""
import os
import shutil
import subprocess
import tempfile

from cases import TOP, example

PROGRAM = "crates/rma_cli/out/rma_cli"
SOURCE = "crates/rma_cli/src/main.rt"
# What stands for the proved program, and for rt: it prints the words of rt try that are the program's.
PRINTS_PROVED = "#!/bin/sh\necho proved\n"
PRINTS_WORDS = """#!/bin/bash
while [[ $1 != -- ]]; do shift; done
shift
printf '%s\\n' "$@"
printf 'usage\\nchecked: ended status=2\\nrun=ended status=2 runners=1 proved=no\\n' >&2
exit 2
"""
FAULTS = "#!/bin/sh\necho run=fault proved=no >&2\nexit 4\n"


def write(path, text, mode=0o644):
    os.makedirs(os.path.dirname(path), exist_ok=True)
    with open(path, "w") as file:
        file.write(text)
    os.chmod(path, mode)


def repository(folder, rt=PRINTS_WORDS):
    """A repository with the script, one source, and an rt beside it."""
    for name in ("rmaudit", "checks/checksum"):
        os.makedirs(os.path.dirname(f"{folder}/{name}"), exist_ok=True)
        shutil.copy(f"{TOP}/{name}", f"{folder}/{name}")
    write(f"{folder}/crates.txt", "rma_cli:\n")
    write(f"{folder}/{SOURCE}", "// one\n")
    write(f"{folder}/bin/rt", rt, 0o755)
    os.mkdir(f"{folder}/logs")


def run_script(folder, *words, at="logs"):
    how = {"cwd": f"{folder}/{at}", "stdin": subprocess.DEVNULL, "capture_output": True, "text": True}
    ran = subprocess.run([f"{folder}/rmaudit", *words], env={**os.environ, "PATH": f"{folder}/bin:{os.environ['PATH']}"}, **how)
    return ran.stdout, ran.stderr, ran.returncode


def words_are_passed_on():
    """Only a word that names a log which is there becomes a path."""
    with tempfile.TemporaryDirectory(prefix="rmaudit-script-") as folder:
        repository(folder)
        for name in ("0", "1", "10", "stdout"):
            write(f"{folder}/logs/{name}", "")
        here = f"{folder}/logs"
        for words, wanted in (
            (["audit", "0", "./1"], ["audit", f"{here}/0", f"{here}/./1"]),
            (["audit", "--limit", "10", "0"], ["audit", "--limit", "10", f"{here}/0"]),
            (["audit", "--limit", "12", "10"], ["audit", "--limit", "12", f"{here}/10"]),
            (["audit", "absent", "/0", "-0", ""], ["audit", "absent", "/0", "-0", ""]),
            (["audit", "stdin", "stdout"], ["audit", f"{here}/stdin", f"{here}/stdout"]),
            (["strict", "--limit", "10", "1"], ["strict", "--limit", "10", f"{here}/1"]),
            (["explain", "1", "1", "10"], ["explain", "1", f"{here}/1", f"{here}/10"]),
            (["explain", "1", "--", "0"], ["explain", "1", "--", f"{here}/0"]),
            (["explain", "1"], ["explain", "1"]),
            (["trial", "0", "1", "10"], ["trial", "0", "1", "10"]),
        ):
            wrote, said, status = run_script(folder, *words)
            if (wrote.splitlines(), status) != (wanted, 2) or "not proved" not in said or not said.endswith("\nusage\n"):
                return f"{words} gives {wrote!r}, {said!r} and {status}"
    return None


def a_run_without_an_end_has_no_answer():
    with tempfile.TemporaryDirectory(prefix="rmaudit-script-") as folder:
        repository(folder, rt=FAULTS)
        wrote, said, status = run_script(folder, "audit", "0")
        return None if (wrote, status) == ("", 70) else f"it wrote {wrote!r}, said {said!r} and ended with {status}"


def only_what_was_proved_runs():
    """The proved program runs exactly where it and all sources have the contents that the gate left, whatever their times."""
    with tempfile.TemporaryDirectory(prefix="rmaudit-script-") as folder:
        repository(folder)
        write(f"{folder}/{PROGRAM}", PRINTS_PROVED, 0o755)
        sum_of = [f"{folder}/checks/checksum", PROGRAM]
        write(f"{folder}/{PROGRAM}.sum", subprocess.run(sum_of, stdout=subprocess.PIPE, text=True).stdout)
        for what, path, text, is_proved in (
            ("at first", "logs/0", "", True),
            ("an older source", SOURCE, "// two\n", False),
            ("the source as it was", SOURCE, "// one\n", True),
            ("a new source", "crates/rma_io/src/lib.rt", "", False),
            ("no new source", "crates/rma_io/src/lib.rt", None, True),
            ("another program", PROGRAM, PRINTS_PROVED + "\n", False),
            ("the program as it was", PROGRAM, PRINTS_PROVED, True),
            ("no checksum", f"{PROGRAM}.sum", None, False),
        ):
            if text is None:
                os.remove(f"{folder}/{path}")
            else:
                write(f"{folder}/{path}", text, 0o755)
                os.utime(f"{folder}/{path}", (0, 0))
            wrote, _, _ = run_script(folder, "audit")
            if (wrote == "proved\n") != is_proved:
                return f"{what}: it wrote {wrote!r}"
    return None


def unproved(words_of, wanted):
    """Runs the sources of this repository, in a folder with nothing built, as a user who has not proved them."""
    with tempfile.TemporaryDirectory(prefix="rmaudit-script-") as folder:
        shutil.copytree(f"{TOP}/crates", f"{folder}/crates", ignore=shutil.ignore_patterns("out"))
        for name in ("crates.txt", "HANDLES", "rmaudit", "checks/checksum"):
            os.makedirs(os.path.dirname(f"{folder}/{name}"), exist_ok=True)
            shutil.copy(f"{TOP}/{name}", f"{folder}/{name}")
        os.mkdir(f"{folder}/logs")
        case = example("two_models")
        case.write_logs(f"{folder}/logs")
        wrote, said, status = run_script(folder, *words_of(case))
        first, _, rest = said.partition("\n")
        got = wrote, rest, status
        wanted = wanted(case)
        if got != wanted or "not proved" not in first:
            return f"it wrote {wrote!r}, said {said!r} and ended with {status}"
    return None


def report_of(case):
    written, said, status = case.wanted
    return written.decode(), said.decode(), status


def is_clean_trial(_):
    return "rmaudit 1 ranks 2 lines 40\nclean\n", "", 0


CHECKS = (
    ("rmaudit: an example, unproved", lambda: unproved(lambda case: ["audit", *case.logs], report_of)),
    ("rmaudit: --limit, unproved", lambda: unproved(lambda case: ["audit", "--limit", "10", *case.logs], report_of)),
    ("rmaudit: a trial, unproved", lambda: unproved(lambda case: ["trial", "2", "5", "7"], is_clean_trial)),
    ("rmaudit: words are passed on", words_are_passed_on),
    ("rmaudit: a run without an end has no answer", a_run_without_an_end_has_no_answer),
    ("rmaudit: only what was proved runs", only_what_was_proved_runs),
)
