"""A site of okws as the tools of its operator see it: what its configuration declares, where the program is, and what its numbers mean.

`okws check` alone judges a configuration; what is read here is one that it took, or the lines of one that it refused."""
import dataclasses, os, re, shutil, subprocess, sys

ROOT = os.path.dirname(os.path.dirname(os.path.realpath(__file__)))
MOST_CONNECTIONS = 1_000_000
MOST_DOORS = 64
MOST_PATIENCE = 3600
MOST_BYTES = 262_144

STATUSES = {
    0: 'the run came to its end',
    2: 'the words are no command',
    3: 'a file could not be read',
    4: 'the configuration is refused',
    5: 'the port could not be opened: another program listens there',
    6: 'a store of rows could not be opened: another server has it, its folder is missing, its tables are other ones, for which there is okws-migrate, or its rows don\'t fit them',
    7: 'the log could not be written, which is told at the end alone',
    8: 'standard output failed',
    9: 'the script is refused',
    10: 'the console failed',
    11: 'memory was refused, or a store and the rows in memory have parted',
}
CONSOLE_RULES = {
    1: 'the line is no command, or longer than 256 bytes',
    2: 'no such template or service is declared',
    3: f'more than {MOST_BYTES} bytes are to be published',
    4: 'the input ended inside the bytes that are to be published',
    5: 'the template has 1000000 editions: begin a new run',
    6: 'the service had 1000000 incarnations: begin a new run',
}


@dataclasses.dataclass
class Line:
    """A line of a configuration or a script that has words and is no comment."""
    number: int
    words: list
    text: str


@dataclasses.dataclass
class Column:
    name: str
    kind: str
    is_key: bool


@dataclasses.dataclass
class Proxy:
    """A database: its tables by name, in order, and its queries' texts by number."""
    name: str
    tables: dict = dataclasses.field(default_factory=dict)
    queries: dict = dataclasses.field(default_factory=dict)


@dataclasses.dataclass
class Service:
    """A compartment: the words that start its program, and what it has of the rest."""
    name: str
    words: list
    paths: list = dataclasses.field(default_factory=list)
    grants: list = dataclasses.field(default_factory=list)
    templates: list = dataclasses.field(default_factory=list)
    logs: bool = False


@dataclasses.dataclass
class Site:
    proxies: dict = dataclasses.field(default_factory=dict)
    services: dict = dataclasses.field(default_factory=dict)
    templates: list = dataclasses.field(default_factory=list)


class Refused(Exception):
    """The program refused a configuration: the status that it ended with, and what it printed."""
    def __init__(self, status, text):
        super().__init__(text)
        self.status, self.text = status, text


def fail(status, *sentence):
    """Ends a tool with a sentence on standard error, behind its name."""
    print(os.path.basename(sys.argv[0]) + ':', *sentence, file=sys.stderr)
    sys.exit(status)


def usage(text, words):
    """Ends a tool that was called with other words than it takes, or asked how it is called."""
    print(text)
    sys.exit(0 if words in (['--help'], ['-h']) else 2)


def program():
    """The server's program: $OKWS, the one that this repository has built, or the one on the path."""
    built = os.path.join(ROOT, 'bin', 'okws')
    found = os.environ.get('OKWS') or (built if os.access(built, os.X_OK) else shutil.which('okws'))
    if not found:
        fail(2, 'there is no program okws on the path; OKWS=FILE tells where it is')
    return found


def lines_of(path):
    """The lines of a configuration or a script, as the program parts them: by LF, and words by spaces and tabs."""
    with open(path, encoding='utf-8', errors='surrogateescape', newline='') as f:
        texts = f.read().split('\n')
    for number, text in enumerate(texts, 1):
        text = text.removesuffix('\r')
        words = [word for word in re.split('[ \t]+', text) if word]
        if words and not words[0].startswith('#'):
            yield Line(number, words, text)


def output_of(words):
    """How the program ends with these words, and the lines that it prints. A line ends in LF alone: a query's text may have any other end of a line."""
    run = subprocess.run(words, stdout=subprocess.PIPE, stdin=subprocess.DEVNULL)
    return run.returncode, run.stdout.decode('utf-8', 'replace').removesuffix('\n').split('\n') if run.stdout else []


def read(path, okws=None):
    """What a configuration declares, its queries' texts in their canonical form. The program judges it first: raises Refused."""
    status, printed = output_of([okws or program(), 'check', '--', path])
    if status:
        raise Refused(status, ' '.join(printed))
    site = Site()
    for line in lines_of(path):
        declare(site, line.words[0], line.words[1:])
    for line in printed:
        proxy, number, text = line.split(' ', 2)
        site.proxies[proxy].queries[int(number)] = text
    return site


def declare(site, kind, words):
    """Adds what one line declares, but for a query, whose text the program tells."""
    if kind == 'proxy':
        site.proxies[words[0]] = Proxy(words[0])
    elif kind == 'table':
        site.proxies[words[0]].tables[words[1]] = columns_of(words[2:])
    elif kind == 'service':
        site.services[words[0]] = Service(words[0], words[1:])
    elif kind == 'uri':
        site.services[words[1]].paths.append(words[0])
    elif kind == 'grant':
        site.services[words[0]].grants += [(words[1], int(number)) for number in words[2:]]
    elif kind == 'template':
        site.templates.append(words[0])
    elif kind == 'read':
        site.services[words[0]].templates.append(words[1])
    elif kind == 'log':
        site.services[words[0]].logs = True


def columns_of(words):
    """The columns of a table's line: names with their types, one of them perhaps the KEY."""
    columns = []
    while words:
        is_key = words[2:3] == ['KEY']
        columns.append(Column(words[0], words[1], is_key))
        words = words[3 if is_key else 2:]
    return columns


def run_folder(name=None):
    """The folder of a site's console: that of systemd's unit okws@NAME, the one that systemd has made for this process, or `run`."""
    return f'/run/okws/{name}' if name else os.environ.get('RUNTIME_DIRECTORY') or 'run'


def shown(name):
    """A file's name as it may stand in a line: quoted where it has what isn't to be printed."""
    return name if name.isprintable() else ascii(name)


def template_files(folder, site):
    """Of each template its file in a folder, NAME or NAME.EXTENSION, and sentences on what doesn't fit."""
    files, odd = {}, []
    for entry in sorted(os.listdir(folder)):
        name = entry if entry in site.templates else os.path.splitext(entry)[0]
        if entry.startswith('.') or entry.endswith('~'):
            continue
        if name not in site.templates:
            odd.append(f'{shown(entry)}: no template {shown(name)} is declared')
        elif name in files:
            odd.append(f'{shown(entry)}: {shown(os.path.basename(files[name]))} is the file of template {name} already')
        elif not os.path.isfile(os.path.join(folder, entry)):
            odd.append(f'{shown(entry)}: it is no file')
        else:
            files[name] = os.path.join(folder, entry)
    odd += [f'template {name}: no file in {folder}' for name in site.templates if name not in files]
    return files, odd


def console_words(answer):
    """An answer of the console, in words where it isn't what was wanted."""
    if answer.startswith('dead '):
        return f'{answer}: the service was given up after so many tries'
    refused = re.fullmatch(r'refused \d+ (\d+)', answer)
    return f'{answer}: {CONSOLE_RULES[int(refused[1])]}' if refused else answer


def status_words(status):
    """How a run ended, in words: negative where a signal ended it."""
    return STATUSES.get(status, 'an unknown status') if status >= 0 else f'killed by signal {-status}'
