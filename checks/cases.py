"""The examples and the cases that the built program is run on, as checks/run, checks/allocations and checks/faults read them.

An example is a folder examples/NAME: the logs 0, 1, .. of the ranks, with the report of their audit in the file report and
the exit number in the file status. What another command answers stands in files that begin with the words before the names:
explain-1.report and explain-1.status are those of explain 1, and the example is then named examples/NAME: explain 1.

A case is a file checks/cases/NAME.json with these members; all but shows, words and status may be left out.

    shows       what it shows, in a sentence
    words       the words of the command line; {names} becomes the names of all logs in order
    logs        each name with the text of the log, or with a list of pairs [count, text], whose texts are repeated and
                joined; in a text that is repeated {k} is the number of the copy, from 0, and {k:05} that in five digits
    each_rank   in place of logs: ranks, a number, and text, from which the log of each rank is made: {rank} and
                {ranks} in it are filled in; but, which may be left out, gives the text of some ranks in its place
    fifos       the logs are FIFOs, into which their texts are written in pieces: pieces, the bytes of the pieces, which
                are taken over and over, and pause, the seconds between two pieces
    output      where standard output goes: a file, or the words closed pipe; what is written there is not compared
    seconds     the most seconds of a processor that it may take, where that is shown
    stdout      what is written on standard output, a text or a list of pairs as in a log
    stderr      what is written on standard error
    status      the exit number
"""
import contextlib
import itertools
import json
import os
import threading
import time

TOP = os.path.dirname(os.path.dirname(os.path.realpath(__file__)))
CLOSED_PIPE = "closed pipe"
# The words behind which a number stands, and no name of a log.
BEFORE_NUMBERS = ("--limit", "explain")
# The most bytes of logs that the sources are run on unproved, which takes a microsecond a byte.
MOST_UNPROVED = 1 << 25


class Case:
    """An example or a case: what the program is given, and what it is to answer."""

    def __init__(self, name, members):
        self.name = name
        self.words = members["words"]
        self.logs = members.get("logs", {})
        self.fifos = members.get("fifos")
        self.output = members.get("output")
        self.seconds = members.get("seconds")
        self.wanted = b"".join(pieces_of(members.get("stdout", ""))), members.get("stderr", "").encode(), members["status"]
        if "each_rank" in members:
            self.logs = logs_of_ranks(**members["each_rank"])

    def needs_the_proved_program(self):
        """Whether a run of the sources cannot show it: that has an output of its own, takes words that are UTF-8, and finds no
        log whose name begins with a dash."""
        is_text = all(it.isprintable() for it in self.words)
        has_dashes = "--" in self.words and any(it.startswith("-") for it in self.logs)
        return self.output is not None or self.size() > MOST_UNPROVED or not is_text or has_dashes

    def size(self):
        """How many bytes the logs have together, more or less."""
        return sum(count * len(text) for log in self.logs.values() for count, text in pairs_of(log))

    def words_with(self, name_of):
        """The words of the command line, where the name of a log is what name_of makes of it."""
        words = [it for word in self.words for it in (self.logs if word == "{names}" else [word])]
        are_names = [it in self.logs and before not in BEFORE_NUMBERS for before, it in zip(["", *words], words)]
        return [name_of(it) if is_name else it for it, is_name in zip(words, are_names)]

    def write_logs(self, folder):
        """Writes the logs into a folder. A FIFO is written as it is read, by a thread of its own."""
        for name, log in self.logs.items():
            path = f"{folder}/{name}"
            if self.fifos:
                os.mkfifo(path)
                threading.Thread(target=self.write_fifo, args=(path, log), daemon=True).start()
            else:
                with open(path, "wb") as file:
                    file.writelines(pieces_of(log))

    def write_fifo(self, path, log):
        text, at = b"".join(pieces_of(log)), 0
        with contextlib.suppress(BrokenPipeError), open(path, "wb", buffering=0) as file:
            for size in itertools.cycle(self.fifos["pieces"]):
                file.write(text[at : at + size])
                at += size
                if at >= len(text):
                    return
                time.sleep(self.fifos["pause"])


def logs_of_ranks(ranks, text, but=None):
    """The log of each rank, from one text, but for some that have another."""
    texts = {str(rank): text for rank in range(ranks)} | (but or {})
    return {rank: text.replace("{rank}", rank).replace("{ranks}", str(ranks)) for rank, text in texts.items()}


def pairs_of(log):
    """The pairs of a number of copies and a text that make a log."""
    return [(1, log)] if isinstance(log, str) else log


def pieces_of(log):
    """The bytes of a log in pieces; long repeats come in pieces of a megabyte or so."""
    for count, text in pairs_of(log):
        if "{k" in text:
            yield "".join(text.format(k=k) for k in range(count)).encode()
            continue
        many = max(1, (1 << 20) // max(1, len(text)))
        yield from ((text * min(many, count - done)).encode() for done in range(0, count, many))


def example(name, command="audit"):
    """What a command answers to the logs of an example; it is given by the words before the names, joined by dashes."""
    folder, words = f"{TOP}/examples/{name}", command.split("-")
    before, title = ("", name) if command == "audit" else (f"{command}.", f"{name}: {' '.join(words)}")
    ranks = sorted((it for it in os.listdir(folder) if it.isdigit()), key=int)
    members = {"words": [*words, "{names}"], "logs": {}}
    for it in ranks:
        with open(f"{folder}/{it}", encoding="ascii", newline="") as log:
            members["logs"][it] = log.read()
    with open(f"{folder}/{before}report", encoding="ascii", newline="") as report, open(f"{folder}/{before}status") as status:
        members |= {"stdout": report.read(), "status": int(status.read())}
    return Case(f"examples/{title}", members)


def commands_on(name):
    """The commands whose answers stand in the folder of an example: the audit, and perhaps others."""
    found = (it.removesuffix(".report") for it in os.listdir(f"{TOP}/examples/{name}") if it.endswith(".report"))
    return ["audit", *sorted(found)]


def examples():
    names = [it for it in sorted(os.listdir(f"{TOP}/examples")) if os.path.isdir(f"{TOP}/examples/{it}")]
    return [example(name, command) for name in names for command in commands_on(name)]


def cases():
    """All examples, with each command on them, and all cases."""
    found = examples()
    for it in sorted(os.listdir(f"{TOP}/checks/cases")):
        if it.endswith(".json"):
            with open(f"{TOP}/checks/cases/{it}") as file:
                found.append(Case(f"checks/cases/{it.removesuffix('.json')}", json.load(file)))
    return found


def difference(wanted, got, names=("standard output", "standard error", "exit number")):
    """What differs, in a few words, or nothing."""
    for what, one, other in zip(names, wanted, got):
        if one != other:
            return f"{what} is {str(other)[:300]} and not {str(one)[:300]}"
    return None
