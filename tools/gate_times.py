#!/usr/bin/env python3
"""What the gate costs, and which edits say nothing.

  tools/gate_times.py run [--jobs N] [FILE]   runs .ci/run, keeps what it prints in FILE (default gate.out), and reads that
  tools/gate_times.py read FILE               reads what an earlier gate printed

Prints the seconds of each crate and of each edit that must fail, the dearest first, what the edits of each crate come to,
and whether the budgets of docs/DESIGN.md are kept. Where several checks run at once a check's seconds are those by the clock;
with `--jobs 1` they are, to a second, its core-seconds, since a check takes one core. `run` also prints user and system time
of the whole gate.

Then it reads target/must-fail/*/*/.log, which the last gate left, and names every edit whose first error says only that the
proof does not fit the code (a need or a field that is not there): such an edit shows nothing of the promise. The exit status is
1 where there is one, where an edit was not refused, or where a budget is passed."""
import argparse
import glob
import os
import re
import resource
import subprocess
import sys
import time

# docs/DESIGN.md, "The gate": core-minutes of a whole run, minutes by the clock on two quiet cores, core-seconds of one edit
CORE_MINUTES, MINUTES, EDIT = 28, 17, 10

PROVED = re.compile(r"^rt: (\S+) (?:NOT )?PROVED.*?(\d+) s\)$|^rt: (\S+) proved \((\d+) s\)$")
RAN = re.compile(r"^rt: (\S+) ran.*\((\d+) s\)$")
REFUSED = re.compile(r"^rt: must-fail (\S+): (refused|NOT REFUSED|BAD EDIT).*?(?:(\d+) s\))?$")
ERROR = re.compile(r"^\S+\.(?:antt|rt):\d+:\d+: (?:error|unsolved)|^note: \S+\.rt:\d+:\d+: it is not proved that")
UNFIT = re.compile(r"has no `[^`]*` that can be named|has no field|expected type `tie\.Need-")


def run(jobs, path):
    """The gate's exit status, its minutes by the clock and its core-minutes."""
    env = dict(os.environ, **({"RT_JOBS": str(jobs)} if jobs else {}))
    began, before = time.time(), resource.getrusage(resource.RUSAGE_CHILDREN)
    with open(path, "wb") as out:
        status = subprocess.call(["bash", ".ci/run"], stdout=out, stderr=subprocess.STDOUT, env=env)
    after = resource.getrusage(resource.RUSAGE_CHILDREN)
    core = after.ru_utime + after.ru_stime - before.ru_utime - before.ru_stime
    return status, (time.time() - began) / 60, core / 60


def seconds(path):
    """Seconds by crate, by program run and by edit, and the edits that were not refused."""
    crates, runs, edits, survived = {}, {}, {}, []
    with open(path, encoding="utf-8", errors="replace") as lines:
        for line in lines:
            proved, ran, edit = PROVED.match(line), RAN.match(line), REFUSED.match(line)
            if proved:
                crates[proved.group(1) or proved.group(3)] = int(proved.group(2) or proved.group(4))
            elif ran:
                runs[ran.group(1)] = int(ran.group(2))
            elif edit:
                edits[edit.group(1)] = int(edit.group(3) or 0)
                if edit.group(2) != "refused":
                    survived.append(edit.group(1))
    return crates, runs, edits, survived


def first_error(log):
    """The first error of a check, with the lines that belong to it."""
    with open(log, encoding="utf-8", errors="replace") as lines:
        found = []
        for line in lines:
            if found and not line.startswith(" "):
                break
            if found or ERROR.match(line):
                found.append(line.strip())
    return " ".join(found)


def unfit():
    """The edits of the last gate whose first error says only that the proof does not fit."""
    for log in sorted(glob.glob("target/must-fail/*/*/.log")):
        error = first_error(log)
        if not error or UNFIT.search(error):
            yield "/".join(log.split("/")[2:4]), error or "no error in " + log


def table(title, rows):
    print("%s: %d, %d s" % (title, len(rows), sum(rows.values())))
    for name, took in sorted(rows.items(), key=lambda row: (-row[1], row[0])):
        print("%6d  %s" % (took, name))
    print()


def main():
    parser = argparse.ArgumentParser(description=__doc__, formatter_class=argparse.RawDescriptionHelpFormatter)
    verbs = parser.add_subparsers(dest="verb", required=True)
    runs_gate = verbs.add_parser("run")
    runs_gate.add_argument("--jobs", type=int)
    runs_gate.add_argument("file", nargs="?", default="gate.out")
    verbs.add_parser("read").add_argument("file")
    words = parser.parse_args()

    faults = []
    if words.verb == "run":
        status, minutes, core = run(words.jobs, words.file)
    crates, runs, edits, survived = seconds(words.file)
    by_crate = {}
    for edit, took in edits.items():
        by_crate[edit.split("/")[0]] = by_crate.get(edit.split("/")[0], 0) + took
    table("crates", crates)
    table("edits", edits)
    table("edits by crate", by_crate)
    table("programs run", runs)

    faults += ["not refused: " + edit for edit in survived]
    faults += ["above %d s: %s" % (EDIT, edit) for edit, took in sorted(edits.items()) if took > EDIT]
    faults += ["the proof does not fit: %s: %s" % (edit, error[:300]) for edit, error in unfit()]
    if words.verb == "run":
        print("core-minutes %.1f of %d; minutes by the clock %.1f of %d" % (core, CORE_MINUTES, minutes, MINUTES))
        faults += ["the gate failed"] if status else []
        faults += ["over the core-minutes"] if core > CORE_MINUTES else []
    print("\n".join(faults) if faults else "no fault")
    sys.exit(bool(faults))


main()
