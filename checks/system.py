"""The checks of what a case cannot say: how the built program meets the system that starts it and reads its report.

Each is given the program, and returns what is wrong, or nothing.
"""
import contextlib
import fcntl
import os
import re
import subprocess
import tempfile
import time

from cases import difference, example

# So many findings are a report that no pipe holds.
MANY = 20_000
# The example whose first log is cut to each length: a run of two ranks with a race.
CUT = "load_before_the_fence"
# The most bytes that one read of a log takes, and the most logs that stay open together.
CHUNK = 65_536
OPEN = 256
# So many seconds the program may take until it waits for a log, and so many until it answers.
SECONDS = 20


def write_logs(folder, barriers):
    """Writes the logs of two ranks, of which the first makes some barriers and the second none."""
    for rank, count in enumerate((barriers, 0)):
        with open(f"{folder}/{rank}", "w", encoding="ascii") as file:
            file.write(f"rma 1 {rank} 2\n" + "barrier world\n" * count + "end\n")


def report_on(barriers):
    """The report on these logs: each barrier of rank 0 lacks one of rank 1."""
    missing = "".join(f"mismatch collective_missing rank 0 line {line}\n" for line in range(2, barriers + 2))
    return f"rmaudit 1 ranks 2 lines {barriers + 4}\n{missing}{f'findings {barriers}' if barriers else 'clean'}\n".encode()


def any_name_of_the_program_will_do(program):
    """The program's own name is no word of its command line, so it need not be UTF-8."""
    with tempfile.TemporaryDirectory(prefix="rmaudit-system-") as folder:
        write_logs(folder, 0)
        how = {"executable": program, "cwd": folder, "stdin": subprocess.DEVNULL, "capture_output": True}
        ran = subprocess.run([b"\xff", b"audit", b"0", b"1"], **how)
        return difference((report_on(0), b"", 0), (ran.stdout, ran.stderr, ran.returncode))


def an_output_that_is_not_ready_is_waited_for(program):
    """The output is a pipe that does not block and is read late: the whole report comes."""
    with tempfile.TemporaryDirectory(prefix="rmaudit-system-") as folder:
        write_logs(folder, MANY)
        reader, writer = os.pipe()
        os.set_blocking(writer, False)
        how = {"cwd": folder, "stdin": subprocess.DEVNULL, "stdout": writer, "stderr": subprocess.PIPE}
        with subprocess.Popen([program, "audit", "0", "1"], **how) as process, os.fdopen(reader, "rb") as pipe:
            os.close(writer)
            time.sleep(0.5)
            written, said = pipe.read(), process.stderr.read()
        return difference((report_on(MANY), b"", 1), (written, said, process.returncode))


def log_of(rank, ranks, barriers):
    return (f"rma 2 {rank} {ranks}\n" + "barrier world\n" * barriers + "end\n").encode()


class Waiting:
    """An audit of logs with the names 0, 1, .., each with as many barriers, of which one is a FIFO into which nothing was written yet."""

    def __init__(self, program, folder, logs, fifo, barriers):
        self.folder, self.fifo, self.text = folder, str(fifo), log_of(fifo, logs, barriers)
        self.report = f"rmaudit 1 ranks {logs} lines {logs * (barriers + 2)}\nclean\n".encode()
        for rank in range(logs):
            if rank != fifo:
                with open(f"{folder}/{rank}", "wb") as log:
                    log.write(log_of(rank, logs, barriers))
        os.mkfifo(f"{folder}/{fifo}")
        # (open for both, it waits for no reader, and has room for the whole log)
        self.writer = os.open(f"{folder}/{fifo}", os.O_RDWR)
        fcntl.fcntl(self.writer, fcntl.F_SETPIPE_SZ, 1 << 20)
        how = {"cwd": folder, "stdin": subprocess.DEVNULL, "stdout": subprocess.PIPE, "stderr": subprocess.PIPE}
        self.process = subprocess.Popen([program, "audit", *map(str, range(logs))], **how)

    def open_logs(self):
        """How far each open log is read once the program waits for the FIFO, by its name; nothing where it does not wait for it."""
        before, end = None, time.monotonic() + SECONDS
        while time.monotonic() < end and self.process.poll() is None:
            found = self.read_so_far()
            if self.fifo in found and found == before and self.is_asleep():
                return found
            before = found
            time.sleep(0.05)
        return None

    def read_so_far(self):
        found, process = {}, f"/proc/{self.process.pid}"
        with contextlib.suppress(OSError):
            for number in os.listdir(f"{process}/fd"):
                folder, name = os.path.split(os.readlink(f"{process}/fd/{number}"))
                if folder == self.folder:
                    with open(f"{process}/fdinfo/{number}", encoding="ascii") as info:
                        found[name] = int(info.readline().split()[1])
        return found

    def is_asleep(self):
        with open(f"/proc/{self.process.pid}/stat", encoding="ascii") as stat:
            return stat.read().rsplit(")", 1)[1].split()[0] == "S"

    def answer(self):
        """What the program answers once the log of the FIFO is written."""
        os.write(self.writer, self.text)
        os.close(self.writer)
        try:
            written, said = self.process.communicate(timeout=SECONDS)
        except subprocess.TimeoutExpired:
            self.process.kill()
            written, said = self.process.communicate()
        return written, said, self.process.returncode


def logs_are_read_in_turn(program):
    """The last of three logs has to be waited for: of each of the others, which are longer than a chunk, one was read."""
    with tempfile.TemporaryDirectory(prefix="rmaudit-system-") as folder:
        waiting = Waiting(program, folder, 3, 2, CHUNK // 10)
        at = waiting.open_logs()
        wrong = difference((waiting.report, b"", 0), waiting.answer())
        return wrong or (None if at == {"0": CHUNK, "1": CHUNK, "2": 0} else f"it waits for 2 and has read {at}")


def many_logs_are_read_one_after_the_other(program):
    """One of more logs than stay open has to be waited for: no other is open then, and one behind it can still be missed."""
    for is_there in (True, False):
        with tempfile.TemporaryDirectory(prefix="rmaudit-system-") as folder:
            waiting = Waiting(program, folder, OPEN + 1, OPEN // 2, 0)
            at = waiting.open_logs()
            if is_there:
                wanted = waiting.report, b"", 0
            else:
                os.remove(f"{folder}/{OPEN}")
                wanted = b"", b"read-fault 0\n", 3
            wrong = difference(wanted, waiting.answer())
            if wrong or at != {str(OPEN // 2): 0}:
                return wrong or f"it waits for {OPEN // 2} and has open {at}"
    return None


def lines_of(text):
    return text.count(b"\n") + (not text.endswith(b"\n") and text != b"")


def report_on_cut(text, lines_of_other):
    """What matches the report on a log of rank 0 that is cut before its end: there is one finding, whatever the whole logs
    have. The last line is bad, or the end is missing at the line after it."""
    lines = lines_of(text)
    where = rf"line {lines} reason (?!missing_end)\w+|line {lines + 1} reason missing_end"
    return rf"rmaudit 1 ranks 2 lines {lines + lines_of_other}\nmalformed rank 0 (?:{where})\nfindings 1\n".encode()


def a_log_that_is_cut_is_malformed(program):
    """The log of rank 0 is cut to each length from 0 on. One byte less than all is the last line feed, which may lack."""
    with tempfile.TemporaryDirectory(prefix="rmaudit-system-") as folder:
        example(CUT).write_logs(folder)
        with open(f"{folder}/0", "rb") as log, open(f"{folder}/1", "rb") as other:
            text, lines_of_other = log.read(), lines_of(other.read())
        for length in range(len(text) - 1):
            with open(f"{folder}/0", "wb") as log:
                log.write(text[:length])
            how = {"cwd": folder, "stdin": subprocess.DEVNULL, "capture_output": True}
            ran = subprocess.run([program, "audit", "0", "1"], **how)
            is_right = re.fullmatch(report_on_cut(text[:length], lines_of_other), ran.stdout)
            if not is_right or (ran.stderr, ran.returncode) != (b"", 1):
                return f"cut to {length} bytes: it writes {ran.stdout}, says {ran.stderr} and ends with {ran.returncode}"
    return None


CHECKS = (
    ("program: any name of it will do", any_name_of_the_program_will_do),
    ("program: an output that is not ready is waited for", an_output_that_is_not_ready_is_waited_for),
    ("program: a log that is cut is malformed", a_log_that_is_cut_is_malformed),
    ("program: logs are read in turn", logs_are_read_in_turn),
    ("program: many logs are read one after the other", many_logs_are_read_one_after_the_other),
)
