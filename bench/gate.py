"""Runs the gate from nothing with the processor time of each check, and prints the table of a log: see gate.sh."""
import collections
import os
import re
import subprocess
import sys
import tempfile
import time

TICKS = os.sysconf("SC_CLK_TCK")
KINDS = ("proof", "tests", "edits")
LINE = re.compile(r"gate: (\w+) (proof|tests|edits) (\d+) s (\d+) MB")


def stat_of(process):
    """The name, the parent, the start and the processor seconds of a process."""
    with open(f"/proc/{process}/stat") as file:
        text = file.read()
    name = text[text.index("(") + 1 : text.rindex(")")]
    rest = text[text.rindex(")") + 2 :].split()
    return name, int(rest[1]), int(rest[19]), (int(rest[11]) + int(rest[12])) / TICKS


def memory_of(process):
    with open(f"/proc/{process}/status") as file:
        found = re.search(r"VmHWM:\s+(\d+)", file.read())
    return int(found[1]) // 1024 if found else 0


def kind_of(process):
    """The crate that a check is of, and for what it is checked."""
    with open(f"/proc/{process}/cmdline", "rb") as file:
        words = file.read().decode(errors="replace").split("\0")
    crate = words[words.index("--crate-name") + 1]
    if "/rt-edit-" in os.readlink(f"/proc/{process}/cwd"):
        return crate, "edits"
    return crate, "tests" if "--test" in words else "proof"


def check_of(process, root):
    """The crate and the kind of the check below root that a process works for; none where it works for no check."""
    found = None
    while process > 1 and process != root:
        name, parent, _, _ = stat_of(process)
        if name == "rattle" and not found:
            found = kind_of(process)
        process = parent
    return found if process == root else None


def look(root, seen):
    """Notes the processor time so far of each process that works for a check below root."""
    for name in filter(str.isdigit, os.listdir("/proc")):
        try:
            process = int(name)
            _, _, start, seconds = stat_of(process)
            key = process, start
            # (a process that isn't yet the program that it will become works for none)
            check = seen[key][:2] if key in seen else check_of(process, root)
            if check:
                seen[key] = (*check, seconds, memory_of(process))
        except (OSError, ValueError, IndexError):
            pass


def run(log):
    started, seen = time.monotonic(), {}
    gate = subprocess.Popen(["rt", "ci", "--anew"], stdout=log, stderr=subprocess.STDOUT, stdin=subprocess.DEVNULL)
    while gate.poll() is None:
        look(gate.pid, seen)
        time.sleep(0.5)
    sums, most = collections.Counter(), collections.Counter()
    for crate, kind, seconds, memory in seen.values():
        sums[crate, kind] += seconds
        most[crate, kind] = max(most[crate, kind], memory)
    for key, seconds in sums.items():
        print(f"gate: {key[0]} {key[1]} {round(seconds)} s {most[key]} MB", file=log)
    print(f"gate: {round((time.monotonic() - started) / 60)} minutes by the clock", file=log, flush=True)


def table(text):
    rows = collections.defaultdict(collections.Counter)
    memory = 0
    for crate, kind, seconds, most in LINE.findall(text):
        rows[crate][kind] += int(seconds)
        memory = max(memory, int(most))
    minutes = lambda seconds: f"{seconds / 60:.1f}"
    print("| Crate | Proof | Tests | Edits | Together |")
    print("|---|---|---|---|---|")
    for crate, row in [*sorted(rows.items(), key=lambda it: -it[1].total()), ("together", sum(rows.values(), collections.Counter()))]:
        print(f"| `{crate}` |" if crate in rows else f"| {crate} |", *[f"{minutes(row[kind])} |" for kind in KINDS], f"{minutes(row.total())} |")
    print(f"\nThe most memory of one check: {memory} MB.", *re.findall(r"gate: (\d+ minutes by the clock)", text))
    print(*re.findall(r"(?m)^\d+ passed, \d+ failed.*$", text)[-1:])


if len(sys.argv) > 1:
    with open(sys.argv[1], errors="replace") as log:
        table(log.read())
else:
    with tempfile.NamedTemporaryFile("w+", prefix="gate-", suffix=".log", delete=False) as log:
        print(f"the log: {log.name}", file=sys.stderr)
        run(log)
        log.seek(0)
        table(log.read())
