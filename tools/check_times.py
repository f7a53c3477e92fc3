#!/usr/bin/env python3
"""What the check of the crates takes, in processor seconds: measured beside a gate's run, and read from its log.

    check_times.py --watch FOLDER   prints a line for each run of the prover on a crate of FOLDER, as it ends; until terminated
    check_times.py LOG              a table of the gate's log: each crate, all must-fail edits, the whole gate
    check_times.py BEFORE AFTER     the same of two logs, side by side

The gate (.ci/run) runs the first beside the prover and prints its lines, which the other two read. A crate's time is that of its
proof, of the proof of its tests and of its builds. The prover keeps what it proved and proves again only what changed: a crate that was not
proved in a log's run is `kept` there and in no sum, and of the edits only those count that were tried in it. A log that lacks the time
of anything that it says was done is refused.
"""
import collections
import os
import re
import signal
import sys
import time

PAUSE = 0.1
TICKS = os.sysconf("SC_CLK_TCK")
# An edit is tried in a folder of its own, which is named after the rt that tries it.
EDIT_FOLDER = re.compile(r"rt-edit-(\d+)-")
EDITS = "/must-fail"
PARENT, USER, SYSTEM, OF_CHILDREN = 1, 11, 12, (13, 14)    # the fields of /proc/PID/stat after the name, from 0 on

PROVED = re.compile(r"rt: (\w+) proved$")
KEPT = re.compile(r"rt: (\w+) is kept: ")
EDIT = re.compile(r"rt: must-fail (\w+)/")
EDITS_KEPT = re.compile(r"rt: (\w+): (\d+) of its \d+ must-fail edits were tried by an earlier run")
TOOK = re.compile(r"processor: (\S+) (\d+\.\d) s$")
GATE = re.compile(r"gate: (\d+) s$")
PASSED = re.compile(r"([1-9]\d*) passed, 0 failed$")

# What a log says: the seconds of each crate, None where it is kept; how many edits were tried, how many there are, and the seconds of those
# that were tried; the whole gate's seconds.
Log = collections.namedtuple("Log", "crates tried edits edit_seconds gate")


class Incomplete(Exception):
    """A log that does not have what the table needs."""


# ---- measuring

def processes():
    """The running processes: for each number the parent's, the words of the command, the processor seconds so far."""
    found = {}
    for pid in filter(str.isdigit, os.listdir("/proc")):
        try:
            with open(f"/proc/{pid}/cmdline", encoding="utf-8", errors="replace") as file:
                words = file.read().split("\0")
            with open(f"/proc/{pid}/stat", encoding="utf-8", errors="replace") as file:
                fields = file.read().rsplit(") ", 1)[1].split()
        except (OSError, IndexError):
            continue    # it has just ended
        found[pid] = fields[PARENT], words, sum(int(fields[i]) for i in (USER, SYSTEM, *OF_CHILDREN)) / TICKS
    return found


def is_prover(words):
    return os.path.basename(words[0]) == "rattle" and "--crate-name" in words


def place(pid):
    """The folder that a process works in; none where it has just ended."""
    try:
        return os.readlink(f"/proc/{pid}/cwd")
    except OSError:
        return ""


def subject(pid, parent, words, folder):
    """What a run of the prover works on: a crate, or a crate's edits; None if it is of another folder."""
    name, at = words[words.index("--crate-name") + 1], place(pid)
    edit = EDIT_FOLDER.match(os.path.basename(at))
    if edit and edit[1] == parent and place(parent) == folder:
        return name + EDITS
    return name if at == os.path.join(folder, "crates", name) else None


def measured(folder):
    """The runs of the prover on crates of the folder: for each number what it works on, and the seconds so far with those of its own copies."""
    found, seen = processes(), {}
    for pid, (parent, words, seconds) in found.items():
        # (a copy of itself, which shares its work, has the same words)
        if is_prover(words) and not (parent in found and is_prover(found[parent][1])):
            what = subject(pid, parent, words, folder)
            if what:
                seen[pid] = [what, seconds]
    for parent, _, seconds in found.values():
        if parent in seen:
            seen[parent][1] += seconds
    return seen


def watch(folder):
    """Prints what each run of the prover took, until it is terminated."""
    folder = os.path.realpath(folder)
    ended = []
    signal.signal(signal.SIGTERM, lambda *_: ended.append(True))
    running = {}
    while True:
        seen = measured(folder)
        for pid, (what, seconds) in running.items():
            if pid not in seen or ended:
                print(f"processor: {what} {seconds:.1f} s", flush=True)
        if ended:
            return
        running = seen
        time.sleep(PAUSE)


# ---- reading logs

def read(path):
    """What a gate's log says."""
    is_kept, gate, passed = {}, None, None
    edits, edits_kept, took = collections.Counter(), collections.Counter(), collections.Counter()
    with open(path, encoding="utf-8", errors="replace") as file:
        for line in map(str.rstrip, file):
            if match := PROVED.match(line):
                is_kept[match[1]] = False
            elif match := KEPT.match(line):
                is_kept[match[1]] = True
            elif match := EDIT.match(line):
                edits[match[1]] += 1
            elif match := EDITS_KEPT.match(line):
                edits_kept[match[1]] += int(match[2])
            elif match := TOOK.match(line):
                took[match[1]] += float(match[2])
            elif match := GATE.match(line):
                gate = int(match[1])
            elif match := PASSED.match(line):
                passed = int(match[1])
    if gate is None or passed is None:
        raise Incomplete(f"{path}: the gate did not come to its end, or something failed; a log of a whole gate is needed")
    named = len(is_kept) + sum(edits.values())
    if named != passed:
        raise Incomplete(f"{path}: {passed} crates and edits passed, and {named} are named: the log is not whole")
    tried = edits - edits_kept
    missing = [what for what in (*(name for name in is_kept if not is_kept[name]), *(name + EDITS for name in tried)) if what not in took]
    if missing:
        raise Incomplete(f"{path}: no processor time of {', '.join(missing)}; run the gate by .ci/run")
    crates = {name: None if is_kept[name] else took[name] for name in is_kept}
    return Log(crates, sum(tried.values()), sum(edits.values()), sum(took[name + EDITS] for name in tried), gate)


def figure(log, name):
    """A crate's cell: `-` where the log has no such crate."""
    if name not in log.crates:
        return "-"
    return "kept" if log.crates[name] is None else f"{log.crates[name]:.0f} s"


def all_crates(log):
    seconds = [it for it in log.crates.values() if it is not None]
    lacking = len(log.crates) - len(seconds)
    return f"{sum(seconds):.0f} s" + f" ({lacking} kept)" * (lacking > 0)


def rows(logs):
    """The table's rows: what, and a cell for each log."""
    for name in dict.fromkeys(name for log in reversed(logs) for name in log.crates):
        yield f"`{name}`", [figure(log, name) for log in logs]
    yield "all crates", [all_crates(log) for log in logs]
    yield "must-fail edits tried", [f"{log.tried} of {log.edits}" for log in logs]
    yield "all these edits", [f"{log.edit_seconds:.0f} s" for log in logs]
    yield "the gate, by the clock", [f"{log.gate / 60:.0f} min" for log in logs]


def table(logs):
    heads = ["processor seconds"] if len(logs) == 1 else ["before", "after"]
    yield "| | " + " | ".join(heads) + " |"
    yield "|---|" + "---|" * len(heads)
    for what, cells in rows(logs):
        yield f"| {what} | " + " | ".join(cells) + " |"


def main(words):
    if len(words) == 2 and words[0] == "--watch":
        watch(words[1])
        return 0
    if len(words) not in (1, 2) or words[0].startswith("-"):
        print(__doc__, file=sys.stderr)
        return 2
    try:
        print("\n".join(table([read(path) for path in words])))
    except (OSError, Incomplete) as fault:
        print(fault, file=sys.stderr)
        return 1
    return 0


if __name__ == "__main__":
    sys.exit(main(sys.argv[1:]))
