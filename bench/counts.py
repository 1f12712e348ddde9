#!/usr/bin/env python3
"""Counts what a request takes of okws and of the bare loop of bench/serve.py, side by side, where times would swing: instructions of the programs, switches,
and system calls, of the servers and of their children.

    bench/counts.py OKWS FOLDER [KIND [CLIENTS [MS]]]    svc_guest stands in FOLDER; KIND: get, post or big; 1 client; 1500 ms

Instructions are counted by valgrind, as the difference of two runs, and those of the system by `perf stat` where the machine counts them; system calls by strace.
Who looks whether something has come before it sleeps looks more often where it is slowed down: `poll`, and what it costs, is more there than in a
plain run. Loopback only. Needs cc, strace and valgrind; what isn't there is left out.
"""
import os, re, shutil, signal, subprocess, sys, time
sys.dont_write_bytecode = True
from serve import Setting, loop_of, made, okws_of, tree

CALLGRIND = ['valgrind', '--tool=callgrind', '--fair-sched=yes', '--callgrind-out-file=counted.%p']


def settled(server):
    """A server that has answered, and whose children are there."""
    server.measured(1, 100)
    return server


def parts(server):
    """The server's own process, and its children."""
    own, *children = tree(server.process.pid)
    return [[own], children]


def switches_of(pids):
    found = [0, 0]
    for pid in pids:
        for thread in os.listdir(f'/proc/{pid}/task'):
            with open(f'/proc/{pid}/task/{thread}/status') as told:
                lines = [line.split() for line in told if 'ctxt_switches' in line]
            found = [sum(pair) for pair in zip(found, (int(number) for _, number in lines))]
    return found


def switches(server, clients, ms):
    """How often the server and its children slept for a request, and how often they were interrupted."""
    sides = parts(server)
    before = [switches_of(pids) for pids in sides]
    answered = server.answered
    server.measured(clients, ms)
    asked = server.answered - answered
    gone = [[(now - then) / asked for now, then in zip(switches_of(pids), old)] for pids, old in zip(sides, before)]
    return {'switches: slept': [side[0] for side in gone], 'switches: interrupted': [side[1] for side in gone]}


def read_summary(path, asked):
    """The system calls of a summary of strace, for each request."""
    with open(path) as told:
        rows = [line.split() for line in told]
    calls = {row[-1]: int(row[3]) / asked for row in rows if len(row) >= 5 and row[3].isdigit() and row[-1] != 'total'}
    return {name: count for name, count in calls.items() if count >= 0.005}


def system_calls(server, clients, ms):
    tracers = []
    for i, pids in enumerate(parts(server)):
        words = [word for pid in pids for word in ('-p', str(pid))]
        tracers.append(subprocess.Popen(['strace', '-f', '-c', '-o', f'calls.{i}', *words], stderr=subprocess.DEVNULL))
    time.sleep(1)
    answered = server.answered
    server.measured(clients, ms)
    for tracer in tracers:
        tracer.send_signal(signal.SIGINT)
        tracer.wait()
    found = [read_summary(f'calls.{i}', server.answered - answered) for i in range(2)]
    names = sorted({*found[0], *found[1]})
    return {'system calls': [sum(side.values()) for side in found], **{name: [side.get(name, 0) for side in found] for name in names}}


def counted_by_perf(server, clients, ms):
    """The instructions that the system takes, where the machine counts them."""
    found = []
    for pids in parts(server):
        answered = server.answered
        words = ['perf', 'stat', '-x,', '-e', 'instructions:k', '-o', 'perf', '-p', ','.join(map(str, pids))]
        counter = subprocess.Popen(words, stderr=subprocess.DEVNULL)
        time.sleep(0.5)
        server.measured(clients, ms)
        counter.send_signal(signal.SIGINT)
        counter.wait()
        with open('perf') as told:
            counts = [line.split(',')[0] for line in told if 'instructions' in line]
        if not counts or not counts[0].isdigit():
            return {}
        found.append(int(counts[0]) / (server.answered - answered))
    return {'instructions of the system': found}


def totals():
    """The instructions that the runs of valgrind counted in this folder, by process; the files are gone then."""
    found = {}
    for name in [name for name in os.listdir() if name.startswith('counted.')]:
        with open(name) as told:
            lines = [line.split() for line in told if line.startswith(('totals:', 'summary:'))]
        found[int(name.split('.')[1])] = max(int(line[1]) for line in lines)
        os.remove(name)
    return found


def has_ended(pid):
    try:
        with open(f'/proc/{pid}/stat') as told:
            return told.read().rpartition(')')[2].split()[0] == 'Z'
    except FileNotFoundError:
        return True


def end(pids):
    """Ends these, the last first, such that each writes what was counted of it before the next is ended."""
    for pid in reversed(pids):
        until = time.monotonic() + 30
        os.kill(pid, signal.SIGTERM)
        while not has_ended(pid) and time.monotonic() < until:
            time.sleep(0.02)


def counted(make, clients, ms, least):
    """How many requests a server answered under valgrind, at least so many, and the instructions of it and of its children."""
    server = make()
    try:
        while server.answered < least:
            server.measured(clients, ms)
        pids = tree(server.process.pid)
        end(pids)
    finally:
        server.end()
    found = totals()
    return server.answered, [found.pop(pids[0]), sum(found.values())]


def instructions(make, clients, ms):
    few, less = counted(make, clients, ms, 1)
    many, more = counted(make, clients, 4 * ms, few + 20)
    return {'instructions of the program': [(high - low) / (many - few) for high, low in zip(more, less)]}


def counts(make, make_counted, clients, ms):
    """All counts of a server: a row's name, with that of the server and that of its children."""
    server = settled(make())
    try:
        rows = switches(server, clients, ms)
        rows |= counted_by_perf(server, clients, ms) if shutil.which('perf') else {}
        rows |= system_calls(server, clients, ms) if shutil.which('strace') else {}
    finally:
        server.end()
    return (instructions(make_counted, clients, ms) if shutil.which('valgrind') else {}) | rows


def tell(loop, okws):
    print('| a request | loop: server | child | okws: server | child |\n|---|---|---|---|---|')
    for name in sorted({*loop, *okws}, key=lambda name: [*okws, *loop].index(name)):
        figures = [*loop.get(name, [0, 0]), *okws.get(name, [0, 0])]
        print(f'| {name} | ' + ' | '.join(f'{figure:,.0f}' if figure >= 100 else f'{figure:.2f}' for figure in figures) + ' |')


def main(okws, services, kind='get', clients='1', ms='1500'):
    okws, clients, ms, setting = os.path.realpath(okws), int(clients), int(ms), Setting(kind, 1, 2)
    with made(services):
        wrap, wrap_service = CALLGRIND, ' '.join(CALLGRIND) + ' '
        loop = counts(lambda: loop_of(setting), lambda: loop_of(setting, wrap), clients, ms)
        own = counts(lambda: okws_of(setting, okws), lambda: okws_of(setting, okws, wrap, wrap_service), clients, ms)
        tell(loop, own)


if __name__ == '__main__':
    main(*sys.argv[1:]) if len(sys.argv) > 2 else sys.exit(__doc__)
