#!/usr/bin/env python3
"""Runs the gate and tells where its time goes: processor seconds by crate, for its proof, its tests, and its edits with their seed;
beside them a yardstick, and what the gate would take on two and on four processors.

    bench/gate.py               the whole gate, `rt ci`
    bench/gate.py NAME ..       that of these crates and those below them
    bench/gate.py --anew        from nothing, whatever this machine kept
    bench/gate.py --write FILE  the times are kept in FILE too, and added to those that stand there: several runs that make all together
    bench/gate.py --read FILE   no run: the table of the times in FILE
    bench/gate.py --check       no run: this script's own tests

What the gate prints goes to standard error. A check is seen by looking at the machine's processes twice a second, so a very short one may be missed.

The yardstick is the proof of a crate that comes with the kit and doesn't change with this repository, in processor seconds, taken behind the run: by
it figures of two machines are compared.

The minutes on two and four processors are those of a schedule and not of a clock. A crate's proof is begun when those below it are proved, its tests
and edits behind it, the longest way first. Processors that would be idle join a check, up to four at one, and each of these takes a fifth more time.
"""
import json
import os
import shutil
import subprocess
import sys
import tempfile
import time
from collections import defaultdict

TICKS = os.sysconf("SC_CLK_TCK")
KINDS = ["proof", "tests", "edits"]
YARDSTICK = "ordmap"
JOBS = 4
DEARER = 0.2


def read(path):
    try:
        with open(path, "rb") as it:
            return it.read()
    except OSError:
        return b""


def descends(pid, top, parents):
    while pid > 1:
        if pid == top:
            return True
        pid = parents.get(pid, 0)
    return False


def processes():
    """The parent of each process, and its processor time with that of those that it waited for."""
    parents, times = {}, {}
    for name in os.listdir("/proc"):
        if name.isdigit():
            fields = read(f"/proc/{name}/stat").rpartition(b")")[2].split()
            if len(fields) > 14:
                parents[int(name)] = int(fields[1])
                times[int(name)] = sum(int(it) for it in fields[11:15]) / TICKS
    return parents, times


def words_of(pid):
    """The words of a process that checks a crate, or none."""
    words = read(f"/proc/{pid}/cmdline").decode(errors="replace").split("\0")
    return words if len(words) > 2 and words[0].endswith("/rattle") and "--crate-name" in words else []


def look(top, seen):
    """Notes the processor time of each check below the process `top`. What a check starts itself, where it has several processors, is a part of its time."""
    parents, times = processes()
    for pid, seconds in times.items():
        words = words_of(pid)
        if words and words_of(parents[pid]) != words and descends(pid, top, parents):
            crate = words[words.index("--crate-name") + 1]
            try:
                is_edit = "/rt-edit" in os.readlink(f"/proc/{pid}/cwd")
            except OSError:
                is_edit = False
            kind = "edits" if is_edit else "tests" if "--test" in words else "proof"
            seen[pid, crate, kind] = max(seen.get((pid, crate, kind), 0), seconds)


def run(words):
    """Runs the gate; tells its status, how long it took, and the processor seconds by crate and kind."""
    begun, seen = time.monotonic(), {}
    gate = subprocess.Popen(["rt", "ci", *words], stdout=sys.stderr)
    while gate.poll() is None:
        look(gate.pid, seen)
        time.sleep(0.5)
    spent = defaultdict(lambda: dict.fromkeys(KINDS, 0.0))
    for (_, crate, kind), seconds in seen.items():
        spent[crate][kind] += seconds
    return gate.returncode, time.monotonic() - begun, spent


def yardstick():
    """The processor seconds of the proof of a crate of the kit."""
    kit = os.path.dirname(subprocess.run(["rt", "doc"], capture_output=True, text=True, check=True).stdout.strip())
    with tempfile.TemporaryDirectory() as room:
        shutil.copytree(f"{kit}/rattle/examples/worked/{YARDSTICK}", f"{room}/crates/{YARDSTICK}", ignore=shutil.ignore_patterns("BUILD.bazel", "out"))
        with open(f"{room}/crates.txt", "w") as it:
            it.write(f"{YARDSTICK}:\n")
        before = os.times()
        done = subprocess.run(["rt", "check"], cwd=f"{room}/crates/{YARDSTICK}", stdout=subprocess.DEVNULL, stderr=subprocess.DEVNULL)
        after = os.times()
    spent = after.children_user + after.children_system - before.children_user - before.children_system
    return spent if done.returncode == 0 else None


def levels_of(path):
    """What each crate of crates.txt stands on, of those that are named there."""
    stands = {}
    with open(path) as it:
        for line in it:
            head, colon, rest = line.partition("#")[0].partition(":")
            if colon:
                stands[head.split()[0]] = rest.split()
    return {crate: [it for it in below if it in stands] for crate, below in stands.items()}


def tasks_of(spent, stands):
    """Each check as (crate, kind): its seconds, and the checks that it waits for."""
    tasks = {}
    for crate, below in stands.items():
        for kind in KINDS:
            waits = [(it, "proof") for it in below] if kind == "proof" else [(crate, "proof")]
            tasks[crate, kind] = (spent.get(crate, {}).get(kind, 0.0), waits)
    return tasks


def longest_ways(tasks):
    """For each check the seconds from its beginning to the end of the longest way that it begins."""
    above = defaultdict(list)
    for task, (_, waits) in tasks.items():
        for it in waits:
            above[it].append(task)
    ways = {}

    def way(task):
        if task not in ways:
            ways[task] = tasks[task][0] + max((way(it) for it in above[task]), default=0.0)
        return ways[task]

    for task in tasks:
        way(task)
    return ways


def pace(jobs):
    """How much of a check `jobs` processors do in a second."""
    return jobs / (1 + DEARER * (jobs - 1))


def share(running, processors):
    """How many processors each of these checks has: one each, and those that are left to the first ones."""
    jobs = dict.fromkeys(running, 1)
    left = processors - len(running)
    for it in running:
        more = min(left, JOBS - 1)
        jobs[it] += more
        left -= more
    return jobs


def minutes(tasks, processors):
    """How long the checks take on so many processors, in minutes."""
    ways, left, done, now = longest_ways(tasks), {it: seconds for it, (seconds, _) in tasks.items()}, set(), 0.0
    while left:
        ready = [it for it in left if all(low in done for low in tasks[it][1])]
        running = sorted(ready, key=lambda it: -ways[it])[:processors]
        jobs = share(running, processors)
        step = min(left[it] / pace(jobs[it]) for it in running)
        now += step
        for it in running:
            left[it] -= step * pace(jobs[it])
            if left[it] < 1e-6:
                del left[it]
                done.add(it)
    return now / 60


def table(spent):
    yield "| crate | proof | tests | seed and edits | all |"
    yield "|---|---|---|---|---|"
    for crate, by in sorted(spent.items(), key=lambda it: -sum(it[1].values())):
        yield f"| `{crate}` |" + "".join(f" {by[it]:.0f} |" for it in KINDS) + f" {sum(by.values()):.0f} |"
    sums = [sum(by[it] for by in spent.values()) for it in KINDS]
    yield "| all |" + "".join(f" {it:.0f} |" for it in sums) + f" {sum(sums):.0f} |"


def tell(spent, took, stick):
    for line in table(spent):
        print(line)
    whole = sum(sum(by.values()) for by in spent.values())
    tasks = tasks_of(spent, levels_of("crates.txt"))
    print(f"\n{whole:.0f} processor seconds" + (f", {took / 60:.1f} minutes on {os.cpu_count()} processors" if took else ""))
    if stick:
        print(f"the yardstick, the proof of the kit's `{YARDSTICK}`, took {stick:.1f} processor seconds: {whole / stick:.0f} times it")
    print(f"by a schedule {minutes(tasks, 2):.0f} minutes on two processors, {minutes(tasks, 4):.0f} on four; the longest way {max(longest_ways(tasks).values()) / 60:.0f} at one job")


def check():
    """The tests of the schedule, by figures that are worked out by hand."""
    stands = {"low": [], "left": ["low"], "right": ["low"]}
    spent = {"low": {"proof": 60.0}, "left": {"proof": 120.0}, "right": {"proof": 60.0, "tests": 60.0}}
    tasks = tasks_of({it: {**dict.fromkeys(KINDS, 0.0), **by} for it, by in spent.items()}, stands)
    ways = longest_ways(tasks)
    assert ways["low", "proof"] == 180 and ways["right", "proof"] == 120
    # Two processors are at `low` for 36 seconds (60 by 2 / 1.2), then one each at `left` and at `right` with its tests.
    assert abs(minutes(tasks, 2) - 2.6) < 1e-6, minutes(tasks, 2)
    # One processor takes the sum.
    assert abs(minutes(tasks, 1) - 5) < 1e-6
    print("3 passed, 0 failed")


def kept(path, spent):
    """The times of this run over those that stand in the file, which is written anew."""
    before = json.loads(read(path) or b"{}")
    both = {**before, **{it: {kind: by[kind] or before.get(it, {}).get(kind, 0.0) for kind in KINDS} for it, by in spent.items()}}
    with open(path, "w") as it:
        json.dump(both, it)
    return both


def main():
    words = sys.argv[1:]
    if words == ["--help"]:
        return print(__doc__)
    if words == ["--check"]:
        return check()
    if words[:1] == ["--read"]:
        return tell(json.loads(read(words[1])), None, None)
    file = words[1] if words[:1] == ["--write"] else None
    status, took, spent = run(words[2:] if file else words)
    tell(kept(file, spent) if file else spent, took, yardstick())
    sys.exit(status)


main()
