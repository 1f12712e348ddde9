"""The files in which a server keeps rows: of --store FILE those of proxy P stand in FILE.P, with its last writes in FILE.P-wal."""
import fcntl, os, sqlite3, struct

MOST_PROXIES = 16
SQL_TYPES = {'INT': 'INTEGER', 'TEXT': 'TEXT', 'BYTES': 'BLOB'}
LOCK = 'hhqqi0q'      # a lock of fcntl(2): type, whence, start, length, process


def files(store):
    """The files of a store that are there, by the numbers of their proxies."""
    return {proxy: f'{store}.{proxy}' for proxy in range(MOST_PROXIES) if os.path.exists(f'{store}.{proxy}')}


def holders(paths):
    """The processes that have one of these files open, as far as they are seen from here."""
    wanted = {os.path.realpath(path) for path in paths}
    found = set()
    for pid in filter(str.isdigit, os.listdir('/proc')):
        try:
            for fd in os.listdir(f'/proc/{pid}/fd'):
                if os.readlink(f'/proc/{pid}/fd/{fd}') in wanted:
                    found.add(int(pid))
        except OSError:
            pass
    return found


def is_locked(path):
    """Whether a process has a file's lock, as a server has that of its files, wherever that process is."""
    with open(path, 'rb') as f:
        told = fcntl.fcntl(f, fcntl.F_GETLK, struct.pack(LOCK, fcntl.F_WRLCK, os.SEEK_SET, 0, 0, 0))
    return struct.unpack(LOCK, told)[0] != fcntl.F_UNLCK


def give(path, like):
    """Gives a file the owner and the mode of another, where who calls may."""
    told = os.stat(like)
    os.chmod(path, told.st_mode & 0o666)
    if (told.st_uid, told.st_gid) != (os.stat(path).st_uid, os.stat(path).st_gid):
        os.chown(path, told.st_uid, told.st_gid)


def making(at, name, columns, with_names=True):
    """The text by which okws makes the table of a number in its proxy. Earlier servers left the names out of it."""
    def label(text):
        return f' /* {text} */' if with_names else ''
    told = ''.join(f', c{i}{label(one.name)} {SQL_TYPES[one.kind]} NOT NULL{" UNIQUE" if one.is_key else ""}' for i, one in enumerate(columns))
    return f'CREATE TABLE t{at}{label(name)} (id INTEGER PRIMARY KEY AUTOINCREMENT{told}) STRICT'


def counts(path):
    """How many rows each table of a file has, by the tables' names there: tN is the N-th table of its proxy, from 0."""
    with sqlite3.connect(path) as database:
        names = [name for name, in database.execute("SELECT name FROM sqlite_master WHERE type = 'table' AND name GLOB 't[0-9]*' ORDER BY length(name), name")]
        found = {name: database.execute(f'SELECT count(*) FROM {name}').fetchone()[0] for name in names}
    database.close()
    return found
