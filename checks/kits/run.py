"""Makes the checks of this folder: run.py OKWS [CHECK]. See checks/kits.sh."""
import sys
import of_bridges, of_confinement, of_filters, of_kits
from serving import run

passed, failed, skipped = run([*of_kits.CHECKS, *of_confinement.CHECKS, *of_filters.CHECKS, *of_bridges.CHECKS], ''.join(sys.argv[2:3]))
if ''.join(sys.argv[2:3]) and not passed + failed + skipped:
    sys.exit(f'there is no check {sys.argv[2]}')
print(f'{passed} passed, {failed} failed' + (f', {skipped} skipped' if skipped else ''))
sys.exit(failed != 0)
