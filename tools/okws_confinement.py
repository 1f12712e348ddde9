"""What a service's words give it of the machine. Those of okws-run, which docs/KITS.md has, are read; another program that confines is known by name alone."""
import dataclasses, os

OTHERS = ('bwrap', 'systemd-run', 'firejail', 'nsjail', 'minijail0', 'docker', 'podman')
LISTS = {'--read': 'reads', '--write': 'writes', '--run': 'starts', '--env': 'names'}
VALUES = {'--memory': 'memory', '--seconds': 'seconds'}
STARTERS = ('sh', 'bash', 'dash', 'ash', 'zsh', 'busybox', 'env', 'perl', 'ruby', 'node', 'nodejs', 'php', 'lua')


@dataclasses.dataclass
class Confinement:
    """What okws-run gives a program beside what it needs to start."""
    reads: list = dataclasses.field(default_factory=list)
    writes: list = dataclasses.field(default_factory=list)
    starts: list = dataclasses.field(default_factory=list)
    names: list = dataclasses.field(default_factory=list)
    network: bool = False
    memory: str = ''
    seconds: str = ''
    program: str = ''


def read(words):
    """The confinement of a service's words, or None where they don't begin with okws-run."""
    if os.path.basename(words[0]) != 'okws-run':
        return None
    found, rest = Confinement(), words[1:]
    while rest and rest[0].startswith('-'):
        option = rest.pop(0)
        if option == '--network':
            found.network = True
        elif option in LISTS and rest:
            getattr(found, LISTS[option]).append(rest.pop(0))
        elif option in VALUES and rest:
            setattr(found, VALUES[option], rest.pop(0))
    found.program = rest[0] if rest else ''
    return found


def shown(words):
    """What confines a service, in words."""
    found = read(words)
    if not found:
        return f'by {words[0]}, whose words are not read here' if os.path.basename(words[0]) in OTHERS else 'no'
    lists = [('reads', found.reads), ('writes', found.writes), ('starts', found.starts), ('has in its environment', found.names)]
    told = [f'{verb} {" ".join(paths)}' for verb, paths in lists if paths] + ['has the network'] * found.network
    told += [f'has {found.memory} MiB'] * bool(found.memory) + [f'has {found.seconds} s a dialog'] * bool(found.seconds)
    return 'by okws-run: ' + ('; '.join(told) or 'has nothing more')


def is_above(path, folder):
    """Whether a path is a folder or stands above it."""
    return os.path.commonpath([os.path.realpath(path), os.path.realpath(folder)]) == os.path.realpath(path)


def odd(words):
    """What looks odd in how a service is confined. Paths are those of the folder of the call, where okws would be started."""
    found = read(words)
    if not found:
        if os.path.basename(words[0]) not in OTHERS:
            yield "it isn't confined on the machine, where it has the files, the processes and the network of the server's user: begin its words with okws-run"
        return
    for path in found.reads + found.writes:
        if is_above(path, '.'):
            yield f'it may read {path}, where the configuration and the rows of others may stand'
    for path in found.writes:
        yield f'it may write {path}'
        if found.program and '/' in found.program and is_above(path, found.program):
            yield f'it may write its own program {found.program}'
    for path in found.starts:
        name = os.path.basename(os.path.realpath(path))
        if os.path.isdir(path) or name.startswith('python') or name in STARTERS:
            yield f'it may start {path}, and what that starts'
    if found.network:
        yield 'it has the network'


def program(words):
    """The program that a service's words start in the end."""
    found = read(words)
    return (found.program or words[0]) if found else words[0]
