"""Runs the checks of the tools: run.py PROGRAM [CHECK]. The last line is 'N passed, N failed, N skipped'."""
import os, shutil, subprocess, sys, tempfile, time
import common
import front, package, rows, seeing, speed, up

CHECKS = [*up.CHECKS, *seeing.CHECKS, *front.CHECKS, *rows.CHECKS, *package.CHECKS, *speed.CHECKS]


def main():
    os.environ['OKWS'] = os.path.realpath(sys.argv[1])
    only, counts = sys.argv[2:], {'passed': 0, 'failed': 0, 'skipped': 0}
    if unknown := [name for name in only if name not in [check.__name__ for check in CHECKS]]:
        sys.exit(f'there is no check {unknown[0]}')
    folder = tempfile.mkdtemp()
    os.chdir(folder)
    try:
        for check in CHECKS:
            name = check.__name__
            if only and name not in only:
                continue
            begun = time.monotonic()
            try:
                check()
                became = 'passed'
            except common.Skipped as why:
                became = 'skipped'
                print(f'{name}: skipped: {why}', flush=True)
            except (AssertionError, OSError, subprocess.TimeoutExpired, ValueError, KeyError, IndexError) as why:
                became = 'failed'
                print(f'{name}: {type(why).__name__} {why}', flush=True)
            counts[became] += 1
            if only:
                print(f'{name}: {became} in {time.monotonic() - begun:.1f} s')
    finally:
        os.chdir('/')
        shutil.rmtree(folder, ignore_errors=True)
    print(', '.join(f'{number} {word}' for word, number in counts.items()))
    return counts['failed'] != 0


sys.exit(main())
