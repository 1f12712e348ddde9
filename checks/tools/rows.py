"""Checks of okws-backup and okws-migrate."""
import json, os, shutil, sqlite3, subprocess, sys, threading, time
import okws_stores
from common import SITE, TOOLS, Skipped, Up, ask, has, run, same, wait_until, write


def entries(port):
    """The numbers of the rows that a site shows."""
    return [int(line.split()[0]) for line in ask(port)[1].splitlines()]


def serves(folder, store, site=SITE):
    """What a second site shows over a store."""
    with Up(folder, '--store', store, '--run', 'second', site=site) as up:
        return entries(up.port)


def a_copy_under_writes_has_what_was_answered():
    written, is_over = [], threading.Event()

    def write_on(port):
        number = 2
        while not is_over.is_set():
            if ask(port, content=f'{number} bob')[0] == 303:
                written.append(number)
            number += 1

    with Up('backup', '--store', 'rows') as up:
        server = json.loads(up.ctl('status', '--json'))['server']['process']
        client = threading.Thread(target=write_on, args=(up.port,))
        client.start()
        for copy in range(3):
            time.sleep(0.2)
            before = list(written)
            told = run('okws-backup', 'rows', f'copy{copy}', cwd='backup')
            has(told, 'rows.0 t0 ', f'server {server} was stopped for')
            copied = serves('backup', f'copy{copy}/rows')
            assert set(before) <= set(copied) and copied == list(range(1, len(copied) + 1)), (before, copied)
        is_over.set()
        client.join(30)
        same(len(entries(up.port)), len(written) + 1)


def a_copy_of_a_store_that_nobody_has_is_made_too():
    with Up('cold', '--store', 'the rows') as up:
        ask(up.port, content='2 bob')
    same(run('okws-backup', 'the rows', 'a copy', cwd='cold'), 'the rows.0 t0 2 rows\n')
    same(oct(os.stat('cold/a copy/the rows.0').st_mode & 0o777), '0o600')
    same(serves('cold', 'a copy/the rows'), [1, 2])
    has(run('okws-backup', 'nothing', 'a copy', status=1, cwd='cold'), 'there is no nothing.0')
    same(sorted(os.listdir('cold/a copy'))[:1], ['the rows.0'])


def a_copy_comes_back_with_its_owner():
    with Up('back', '--store', 'rows') as up:
        ask(up.port, content='2 bob')
        run('okws-backup', 'rows', 'copy', cwd='back')
        ask(up.port, content='3 cy')
        has(run('okws-backup', '--restore', 'rows', 'copy', status=1, cwd='back'), 'a server has rows')
        up.process.kill()
        wait_until(lambda: not okws_stores.is_locked('back/rows.0'))
    owner = (65534, 65534) if os.geteuid() == 0 else (os.geteuid(), os.getegid())
    os.chown('back/rows.0', *owner)
    run('okws-backup', '--restore', 'rows', 'copy', cwd='back')
    told = os.stat('back/rows.0')
    same((told.st_uid, told.st_gid, told.st_mode & 0o777, os.path.exists('back/rows.0-wal')), (*owner, 0o600, False))
    os.chown('back/rows.0', os.geteuid(), os.getegid())
    same(serves('back', 'rows'), [1, 2])
    has(run('okws-backup', '--restore', 'rows', 'nowhere', status=1, cwd='back'), 'has no copy of rows')


def a_server_goes_on_though_another_holder_has_ended():
    with Up('others', '--store', 'rows') as up:
        with open('others/rows.0', 'rb') as held:
            other = subprocess.Popen(['sleep', '60'], stdin=held)
        has(run('okws-backup', 'rows', 'copy', cwd='others'), 'was stopped for')
        other.kill()
        run('okws-backup', 'rows', 'copy', cwd='others')
        other.wait()
        same(entries(up.port), [1])


def a_store_whose_server_is_not_seen_is_not_copied():
    with Up('unseen', '--store', 'rows'):
        words = ['unshare', '--user', '--map-root-user', '--mount', '--pid', '--fork', '--mount-proc', sys.executable, os.path.join(TOOLS, 'okws-backup'), 'rows', 'copy']
        told = subprocess.run(words, cwd='unseen', capture_output=True, text=True, timeout=120)
        if 'unshare' in told.stderr:
            raise Skipped('there is no namespace to be had')
        has(told.stderr, 'is not seen from here')


def a_damaged_store_is_no_copy():
    with Up('damaged', '--store', 'rows') as up:
        for number in range(2, 60):
            ask(up.port, content=f'{number} bob')
    run('okws-backup', 'rows', 'good', cwd='damaged')
    shutil.copy('damaged/good/rows.0', 'damaged/bad.0')
    with open('damaged/bad.0', 'r+b') as f:
        f.seek(4096)
        f.write(b'\xff' * 4096)
    run('okws-backup', 'bad', 'copy', status=1, cwd='damaged')
    same(os.listdir('damaged/copy'), [])


NEW = (SITE.replace('note TEXT', 'stars INT note TEXT more BYTES').replace("1 'ann' 'hi'", "1 'ann' 5 'hi' x''")
       .replace('who, note) VALUES (?1, ?2, ?3)', "who, stars, note, more) VALUES (?1, ?2, 0, ?3, x'')"))
NEW = NEW.replace('query main 1', "table main extra a INT\nrow main extra 7\nquery main 1", 1)


def rows_are_taken_over_to_other_columns():
    with Up('migrate', '--store', 'rows') as up:
        same([ask(up.port, content=f'{n} bob')[0] for n in (3, 2)], [303, 303])
        write('migrate/new.okws', NEW)
        has(run('okws-migrate', 'site.okws', 'rows', 'new.okws', 'moved', status=1, cwd='migrate'), 'a server has rows')
    told = run('okws-migrate', 'site.okws', 'rows', 'new.okws', 'moved', cwd='migrate')
    same(told, 'main.msgs: 3 rows; stars INT is new; more BYTES is new\nmain.extra is new\n')
    has(run('okws-migrate', 'site.okws', 'rows', 'new.okws', 'moved', status=1, cwd='migrate'), 'is there already')
    shutil.copy('migrate/rows.0', 'migrate/others.1')
    has(run('okws-migrate', 'site.okws', 'others', 'new.okws', 'again', status=1, cwd='migrate'), 'others.0 is not there')
    with Up('migrate', '--store', 'moved', site=NEW.replace('SELECT id, who FROM msgs ORDER BY id', 'SELECT stars, note FROM msgs')) as up:
        same(ask(up.port), (200, '0 hi\n0 \n0 \n'))
    has(run('okws-backup', 'moved', 'copy', cwd='migrate'), 'moved.0 t0 3 rows', 'moved.0 t1 1 rows')
    same(serves('migrate', 'rows'), [1, 2, 3])


EARLIER = """CREATE TABLE t0 (id INTEGER PRIMARY KEY AUTOINCREMENT, c0 INTEGER NOT NULL UNIQUE, c1 TEXT NOT NULL, c2 TEXT NOT NULL) STRICT;
INSERT INTO t0 (c0, c1, c2) VALUES (7, 'cy', 'x'), (3, 'di', 'y');
"""


def make_by_hand(path, text):
    """A store as a server that kept no names made it."""
    os.makedirs(os.path.dirname(path), exist_ok=True)
    database = sqlite3.connect(path)
    database.execute('PRAGMA journal_mode = WAL')
    database.executescript(text)
    database.close()


def a_store_of_an_earlier_server_is_taken_over():
    make_by_hand('earlier/rows.0', EARLIER)
    with Up('earlier', '--store', 'rows') as up:
        same(up.ends(), 6)
        has(up.events(), 'store fault', 'okws-migrate')
    told = run('okws-migrate', 'site.okws', 'rows', 'site.okws', 'now/rows', status=6, cwd='earlier')
    has(told, 'now/rows: ')
    os.mkdir('earlier/now')
    told = run('okws-migrate', 'site.okws', 'rows', 'site.okws', 'now/rows', cwd='earlier')
    has(told, 'main: an earlier okws made it, without names', 'main.msgs: 2 rows\n')
    run('okws-backup', '--restore', 'rows', 'now', cwd='earlier')
    with Up('earlier', '--store', 'rows') as up:
        same(ask(up.port, content='5 ed'), (303, ''))
        same(ask(up.port), (200, '3 di\n5 ed\n7 cy\n'))
        same(ask(up.port, content='7 flo'), (409, 'taken\n'))
    told = run('okws-migrate', 'site.okws', 'rows', 'site.okws', 'again', cwd='earlier')
    same(told, 'main.msgs: 3 rows\n')


def a_store_of_other_tables_is_not_taken_over():
    """The configuration before has another type, another key, another name, or a table more; or the store is the one with a table more."""
    make_by_hand('others_tables/rows.0', EARLIER)
    for before, after in (('note TEXT', 'note BYTES'), ('id INT KEY', 'id INT'), ('query main 1', 'table main more a INT\nquery main 1')):
        site = SITE.replace(before, after, 1).replace("'hi'", "x''" if 'BYTES' in after else "'hi'")
        write('others_tables/site.okws', site)
        has(run('okws-migrate', 'site.okws', 'rows', 'site.okws', 'moved', status=1, cwd='others_tables'), 'is not main.')
    same([name for name in os.listdir('others_tables') if name.startswith('moved')], [])
    with Up('others_tables', '--store', 'named') as up:
        same(ask(up.port), (200, '1 ann\n'))
    write('others_tables/other.okws', SITE.replace('note TEXT', 'more TEXT').replace('who, note)', 'who, more)'))
    told = run('okws-migrate', 'other.okws', 'named', 'site.okws', 'moved', status=1, cwd='others_tables')
    has(told, 'table 0 is not main.msgs of other.okws', '/* note */')
    make_by_hand('others_tables/rows.0', 'CREATE TABLE t1 (id INTEGER PRIMARY KEY AUTOINCREMENT, c0 INTEGER NOT NULL) STRICT')
    has(run('okws-migrate', 'site.okws', 'rows', 'site.okws', 'moved', cwd='others_tables'), 'the rows of t1, which site.okws does not declare, stay behind')


def rows_that_do_not_fit_leave_no_store():
    with Up('unfit', '--store', 'rows') as up:
        ask(up.port, content='2 ann')
    site = SITE.replace('id INT KEY who TEXT', 'id INT who TEXT KEY')
    write('unfit/new.okws', site)
    has(run('okws-migrate', 'site.okws', 'rows', 'new.okws', 'moved', status=1, cwd='unfit'), 'UNIQUE')
    same([name for name in os.listdir('unfit') if name.startswith('moved')], [])
    write('unfit/new.okws', SITE.replace(' note TEXT', '').replace(" 'hi'", '').replace(', note) VALUES (?1, ?2, ?3)', ') VALUES (?1, ?2)'))
    same(run('okws-migrate', 'site.okws', 'rows', 'new.okws', 'moved', cwd='unfit'), 'main.msgs: 2 rows; note TEXT has gone\n')


CHECKS = [
    a_copy_under_writes_has_what_was_answered, a_copy_of_a_store_that_nobody_has_is_made_too, a_copy_comes_back_with_its_owner,
    a_server_goes_on_though_another_holder_has_ended, a_store_whose_server_is_not_seen_is_not_copied, a_damaged_store_is_no_copy,
    rows_are_taken_over_to_other_columns, a_store_of_an_earlier_server_is_taken_over, a_store_of_other_tables_is_not_taken_over, rows_that_do_not_fit_leave_no_store,
]
