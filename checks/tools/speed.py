"""Checks of what measures the server beside a bare loop: bench/serve.py and bench/counts.py come to their ends, for a moment each, all answers as wanted."""
import os, shutil, subprocess, sys
from common import ROOT, Skipped, has, same


def guests():
    """The folder that has svc_guest: the program's, bin, or that of the crate."""
    for folder in (os.path.dirname(os.environ['OKWS']), os.path.join(ROOT, 'bin'), os.path.join(ROOT, 'crates', 'svc_guest', 'out')):
        if os.access(os.path.join(folder, 'svc_guest'), os.X_OK):
            return folder
    raise Skipped('there is no svc_guest')


def measured(script, *words):
    if not shutil.which('cc'):
        raise Skipped('there is no cc')
    folder = guests()
    command = [sys.executable, os.path.join(ROOT, 'bench', script), os.environ['OKWS'], folder, *words]
    done = subprocess.run(command, capture_output=True, text=True, timeout=300)
    same((done.returncode, done.stderr), (0, ''))
    return done.stdout


def the_server_is_timed_beside_the_loop():
    told = measured('serve.py', '1', '10')
    has(told, 'yardstick:', '| GET of two rows, 1 at 2 | 64 |', '| stored rows, 1 at 2 | 1 |', '| POST of 262,144 bytes, 1 at 2 | 8 |', 'peak memory:')
    has(told, '| reply of 1 MB, 1 at 2 | 2 |', '| services, 2 at 4 | 64 |', '| services, 4 at 4 | 8 |', '| many doors, 1 at 64 | 64 |')
    same(len({line.count('|') for line in told.splitlines() if line.startswith('|')}), 1)


def what_a_request_takes_is_counted():
    told = measured('counts.py', 'get', '1', '200')
    has(told, '| switches: slept |')
    if shutil.which('strace'):
        has(told, '| accept4 |')


CHECKS = [the_server_is_timed_beside_the_loop, what_a_request_takes_is_counted]
