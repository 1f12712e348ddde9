"""Checks of okws-init, of what tools/install.sh installs, and of the packages of tools/dist.sh."""
import functools, glob, os, re, shutil, subprocess, threading
from common import ROOT, TOOLS, Skipped, a_port, ask, has, read, run, same, wait_until, write

TOOL_NAMES = ['backup', 'ctl', 'draw', 'explain', 'front', 'init', 'migrate', 'show', 'up']


def bash(*words, **environment):
    """What a script prints, which ends well."""
    settings = {'stdin': subprocess.DEVNULL, 'stdout': subprocess.PIPE, 'stderr': subprocess.STDOUT, 'text': True, 'timeout': 300}
    done = subprocess.run(words, env={**os.environ, **environment}, **settings)
    if done.returncode:
        raise AssertionError(f'{words} ended with {done.returncode}: {done.stdout}')
    return done.stdout


def programs():
    """A folder with the program, as `make bin` leaves it."""
    os.makedirs('programs', exist_ok=True)
    shutil.copy(os.environ['OKWS'], 'programs/okws')
    return os.path.abspath('programs')


@functools.cache
def packages():
    """The packages of this repository with a program of another commit, after a gate that ended with 7 passed, by the ends of their names."""
    if not shutil.which('dpkg-deb'):
        raise Skipped('there is no dpkg-deb')
    folder = programs()
    write(f'{folder}/okws.commit', 'abcd-dirty\n')
    write(f'{folder}/gate', 'commit abcd-dirty\n7 passed, 0 failed\n')
    made = bash(f'{TOOLS}/dist.sh', 'packages', BIN=folder)
    return {path.rpartition('.')[2]: path for path in made.splitlines() if os.path.exists(path)}


class Started:
    """A site's `start` with these variables alone, until the end of the block."""
    def __init__(self, folder, **environment):
        self.folder, self.environment, self.port = folder, environment, a_port()

    def __enter__(self):
        self.events = os.path.abspath('started')
        words = [os.path.join(self.folder, 'start'), str(self.port)]
        with open(self.events, 'w') as out:
            self.process = subprocess.Popen(words, env=self.environment, stdin=subprocess.DEVNULL, stdout=out, stderr=out)
        self.limit = threading.Timer(300, self.process.kill)
        self.limit.start()
        wait_until(lambda: 'serves' in read(self.events) or self.process.poll() is not None)
        return self

    def __exit__(self, *_):
        self.process.terminate()
        self.process.wait(90)
        self.limit.cancel()


def signs(port):
    """Fills the form of a new site, and finds the note in the page, and nothing of it as markup."""
    has(ask(port, '/')[1], '<h1>Notes</h1>', 'name="who"')
    same(ask(port, '/', 'who=ann&note=%3Cb%3Ehi')[0], 303)
    has(ask(port, '/')[1], '<b>ann</b> &lt;b&gt;hi')
    same(ask(port, '/', 'who=ann&note=')[0], 400)


def a_new_site_serves_a_page_with_a_form_from_the_tarball():
    bash('tar', '-xzf', packages()['gz'])
    (tree,) = glob.glob('okws-0.*')
    path = f'{os.path.abspath(tree)}/bin:/usr/bin:/bin'
    bash('okws-init', 'a new site', PATH=path)
    with Started('a new site', PATH=path) as site:
        signs(site.port)
        bash('sh', '-c', 'cd "a new site" && okws-ctl status && okws-ctl relaunch notes && okws-ctl stop', PATH=path)
        same(site.process.wait(30), 0)
    with Started('a new site', PATH=path) as site:
        has(ask(site.port, '/')[1], '<b>ann</b>')
    has(read('a new site/notes.log'), 'a note of 5 letters')


def a_new_site_serves_a_page_from_the_repository():
    run('okws-init', 'near')
    with Started('near', PATH='/usr/bin:/bin', OKWS=os.environ['OKWS']) as site:
        signs(site.port)


def a_folder_that_is_there_is_left_alone():
    write('mine/site.okws', 'mine')
    has(run('okws-init', 'mine', status=1), 'mine')
    same(read('mine/site.okws'), 'mine')
    run('okws-init', status=2)


def an_installed_tree_is_whole():
    bash(f'{TOOLS}/install.sh', '/opt/okws', DESTDIR=os.path.abspath('opt'), BIN=programs())
    top = 'opt/opt/okws'
    for name in TOOL_NAMES:
        has(bash(f'{top}/bin/okws-{name}', '--help', PYTHONDONTWRITEBYTECODE='1'), f'okws-{name}')
        has(read(f'{top}/bin/okws-{name}').splitlines()[0], '#!/usr/bin/python3')
    broken = [path for path in glob.glob(f'{top}/**', recursive=True) if not os.path.exists(path)]
    same(broken, [])
    has(read(f'{top}/lib/systemd/system/okws@.service'), 'ExecStart=/opt/okws/bin/okws-up', 'ExecStartPre=-/opt/okws/bin/okws check')
    assert os.path.exists(f'{top}/share/okws/docs/RULES.md') and os.path.exists(f'{top}/share/okws/kits/python/okws.py')


def the_unit_is_well_formed():
    if not shutil.which('systemd-analyze'):
        raise Skipped('there is no systemd-analyze')
    unit = os.path.abspath('okws@.service')
    write(unit, re.sub(r'/usr/bin/okws\S*', '/bin/true', read(f'{TOOLS}/okws@.service')))
    same(subprocess.run(['systemd-analyze', 'verify', '--man=no', unit], capture_output=True, text=True, timeout=60).stderr, '')


def the_unit_is_exposed_by_15_of_100():
    """The number that docs/PEERS.md tells."""
    if not shutil.which('systemd-analyze'):
        raise Skipped('there is no systemd-analyze')
    unit = os.path.abspath('okws@.service')
    shutil.copy(f'{TOOLS}/okws@.service', unit)
    told = subprocess.run(['systemd-analyze', 'security', '--offline=true', '--threshold=15', unit], capture_output=True, text=True, timeout=60)
    if 'unrecognized option' in told.stderr:
        raise Skipped('systemd-analyze is too old for it')
    same((told.returncode, 'exposure level for okws@i.service: 1.5' in told.stdout), (0, True))


def packages_name_the_commits_and_the_gate():
    commit = bash('git', '-C', ROOT, 'rev-parse', 'HEAD').strip()
    told = ' '.join(bash('dpkg-deb', '--field', packages()['deb'], 'Description').split())
    has(told, 'okws: of commit abcd-dirty', f'all else: of commit {commit}', 'ended with: 7 passed, 0 failed')
    listed = bash('tar', '-tzf', packages()['gz'])
    has(listed, 'share/okws/BUILT', 'bin/okws\n', 'bin/okws-up\n', 'share/okws/docs/RULES.md', 'share/man/man1/okws.1.gz' if shutil.which('pandoc') else '')


def a_package_has_no_error_by_lintian():
    if not shutil.which('lintian'):
        raise Skipped('there is no lintian')
    found = subprocess.run(['lintian', packages()['deb']], capture_output=True, text=True, timeout=600).stdout
    same([line for line in found.splitlines() if line.startswith('E:')], [])


CHECKS = [
    a_new_site_serves_a_page_with_a_form_from_the_tarball, a_new_site_serves_a_page_from_the_repository, a_folder_that_is_there_is_left_alone,
    an_installed_tree_is_whole, the_unit_is_well_formed, the_unit_is_exposed_by_15_of_100, packages_name_the_commits_and_the_gate, a_package_has_no_error_by_lintian,
]
