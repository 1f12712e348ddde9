"""Checks of okws-up and okws-ctl."""
import json, os, signal, socket, subprocess, threading
from common import SITE, TOOLS, Up, a_port, ask, has, read, run, same, wait_until, write

ANN = (200, '1 ann\n')


def status_of(up):
    return json.loads(run('okws-ctl', 'status', '--json', cwd=up.folder))


def gone(pid):
    """Whether a process has ended, waited for or not."""
    try:
        return read(f'/proc/{pid}/stat').rsplit(')', 1)[1].split()[0] == 'Z'
    except OSError:
        return True


def a_site_is_kept_and_steered():
    write('kept/templates/page.txt', 'before\n@{rows}')
    with Up('kept', '--templates', 'templates') as up:
        same(ask(up.port), (200, 'before\n1 ann\n'))
        has(up.ctl('status'), 'ready', '1 children of 1 services run', 'page: edition 1')
        write('kept/other', '@{rows}behind\n')
        same(up.ctl('publish', 'page', 'other'), 'published 2\n')
        same(ask(up.port), (200, '1 ann\nbehind\n'))
        same(up.ctl('relaunch', 'notes'), 'relaunched 2\n')
        same(ask(up.port), (200, '1 ann\nbehind\n'))
        children = [child['process'] for child in status_of(up)['children']]
        same(up.ctl('stop'), 'stopping\n')
        same(up.ends(), 0)
        assert all(map(gone, children)), children
        same(os.listdir('kept/run'), ['console.lock'])
        run('okws-ctl', 'status', status=3, cwd='kept')


def a_status_has_the_servers_counts():
    with Up('counted', '--log', 'log') as up:
        same(ask(up.port, content='2 bob')[0], 303)
        same(ask(up.port), (200, '1 ann\n2 bob\n'))
        write('counted/page', '@{rows}')
        same((up.ctl('publish', 'page', 'page'), up.ctl('relaunch', 'notes')), ('published 1\n', 'relaunched 2\n'))
        wanted = {'connections': 2, 'accepts': 2, 'launches': 2, 'publications': 1, 'logged': 1, 'up': 1, 'down': 0, 'dead': 0}
        wait_until(lambda: status_of(up)['counts'] == wanted)      # a client has its answer before its connection counts
        has(up.ctl('status'), 'counts    connections 2, accepts 2, launches 2, publications 1, logged 1, up 1, down 0, dead 0\n')


def behind(folder, lines):
    """A program in a folder that is the real one, whose console's lines come through this command of the shell."""
    write(f'{folder}/program', f'#!/bin/bash\n[ "$1" = serve ] || exec "$REAL" "$@"\nexec "$REAL" "$@" < <({lines})\n')
    os.chmod(f'{folder}/program', 0o755)
    return {'environment': {'REAL': os.environ['OKWS']}}


def an_older_servers_counts_are_not_known():
    """An older server has no command `status`, as this one has none `counts`."""
    with Up('older', '--okws', './program', **behind('older', 'exec sed -u "s/^status$/counts/"')) as up:
        same(status_of(up)['counts'], None)
        has(up.ctl('status'), 'ready', 'counts    not known')
        same(up.ctl('relaunch', 'notes'), 'relaunched 2\n')
        same(ask(up.port), ANN)


def a_status_does_not_wait_for_a_late_answer_which_is_no_others():
    """The first `status` comes to the server once the file `now` is there, and what follows it behind it."""
    late = 'while IFS= read -r line; do [ "$line" != status ] || until [ -e now ]; do sleep 0.1; done; printf "%s\\n" "$line"; done'
    with Up('late_counts', '--okws', './program', **behind('late_counts', late)) as up:
        same([status_of(up)['counts'] for _ in range(2)], [None, None])
        has(up.ctl('status'), 'ready', 'counts    not known')
        write('late_counts/now', '')
        same(up.ctl('relaunch', 'notes'), 'relaunched 2\n')
        same(status_of(up)['counts']['launches'], 2)
        same(ask(up.port), ANN)


def paths_may_have_spaces():
    write('a site/the pages/page.txt', '@{rows}')
    with Up('a site', '--templates', 'the pages', '--store', 'the rows', '--log', 'the log', '--run', 'a run') as up:
        same(ask(up.port, content='2 bob'), (303, ''))
        same(ask(up.port), (200, '1 ann\n2 bob\n'))
        same(run('okws-ctl', '--run', 'a run', 'publish', cwd='a site'), '0 published, 0 not\n')
    same(read('a site/the log').split(' ', 1)[1], '1 notes 1 entered 2\n')


def a_folder_is_one_boxs():
    with Up('one') as up:
        has(run('okws-up', 'site.okws', '--port', str(a_port()), status=1, cwd='one'), 'another okws-up has')
        same(ask(up.port), ANN)
        up.ctl('status')


def what_a_killed_box_leaves_is_taken_over():
    with Up('killed', '--store', 'rows', '--log', 'log') as up:
        server = status_of(up)['server']['process']
        up.process.kill()
        wait_until(lambda: gone(server))
        assert os.path.exists('killed/run/console')
    with Up('killed', '--store', 'rows', '--log', 'log', port=up.port) as up:
        same(ask(up.port), ANN)
        up.ctl('status')


def what_is_no_socket_is_left_alone():
    write('plain/run/console', 'mine')
    with Up('plain') as up:
        same(up.ends(), 1)
        has(up.events(), 'is none of okws-up')
    same(read('plain/run/console'), 'mine')


def template_files_that_fit_nothing_are_told():
    for name in ('page.txt', 'page.html', 'pgae.txt', '.page.swp', 'page.txt~'):
        write(f'odd/templates/{name}', '@{rows}')
    write('odd/templates/big.txt', 'x' * 262145)
    with Up('odd', '--templates', 'templates', site=SITE + 'template big\ntemplate none\n') as up:
        has(up.events(), 'pgae.txt: no template pgae', 'page.txt: page.html is the file', 'big.txt: more than 262144', 'template none: no file')
        assert 'swp' not in up.events() and 'txt~' not in up.events(), up.events()
        same(ask(up.port), ANN)
    with Up('odd', '--templates', 'nowhere') as up:
        has(up.events(), 'nowhere: No such file')
        same(ask(up.port), ANN)


def a_file_whose_name_is_no_text_is_told_on_one_line():
    write('names/templates/page.txt', '@{rows}')
    with open(b'names/templates/\xff\n.txt', 'w'):
        pass
    with Up('names', '--templates', 'templates', environment={'PYTHONIOENCODING': 'utf-8:strict'}) as up:
        told = r"'\udcff\n.txt': no template '\udcff\n' is declared"
        same(up.ctl('reload', status=1), f'not all is reloaded: 0 published; {told}\n')
        has(up.events(), f'templates: {told}')
        same(ask(up.port), ANN)


def a_hangup_publishes_what_changed_and_opens_the_log_anew():
    write('hup/templates/page.txt', 'a')
    with Up('hup', '--templates', 'templates', '--log', 'log') as up:
        ask(up.port, content='2 bob')
        wait_until(lambda: 'entered 2' in read('hup/log'))
        os.rename('hup/log', 'hup/log.1')
        write('hup/templates/page.txt', 'b')
        up.process.send_signal(signal.SIGHUP)
        wait_until(lambda: 'published 2' in up.events() and os.path.exists('hup/log'))
        same(ask(up.port), (200, 'b'))
        ask(up.port, content='3 cy')
        wait_until(lambda: 'entered 3' in read('hup/log'))
    assert 'entered 3' not in read('hup/log.1')


def a_reload_says_what_it_did():
    write('reload/templates/page.txt', 'a')
    with Up('reload', '--templates', 'templates', '--log', 'log') as up:
        same(up.ctl('reload'), 'reloaded: 0 published\n')
        write('reload/templates/page.txt', 'b')
        os.rename('reload/log', 'reload/log.1')
        same(up.ctl('reload'), 'reloaded: 1 published\n')
        same(ask(up.port), (200, 'b'))
        ask(up.port, content='2 bob')
        wait_until(lambda: 'entered 2' in read('reload/log'))
        same(read('reload/log.1'), '')
        write('reload/templates/page.txt', 'x' * 262145)
        told = up.ctl('reload', status=1)
        has(told, 'not all is reloaded: 0 published', 'page.txt: more than 262144 bytes')
        same(ask(up.port), (200, 'b'))
        has(up.events(), told.strip())
    with Up('reload') as up:
        same(up.ctl('reload'), 'reloaded: 0 published\n')


def a_reload_tells_of_another_configuration():
    with Up('other_site') as up:
        write('other_site/site.okws', SITE + 'service more /bin/true\nuri /more more\n')
        told = 'not all is reloaded: 0 published; site.okws has changed, which counts from the next start of okws-up alone'
        same(up.ctl('reload', status=1), told + '\n')
        up.process.send_signal(signal.SIGHUP)
        wait_until(lambda: up.events().count(told) == 2)
        same((ask(up.port, '/more')[0], ask(up.port)), (404, ANN))
        os.unlink('other_site/site.okws')
        has(up.ctl('reload', status=1), 'site.okws: No such file')


def the_next_run_has_the_same_site():
    write('again/templates/page.txt', 'a')
    with Up('again', '--templates', 'templates', '--store', 'rows', '--count', '3') as up:
        up.ctl('publish', 'page', 'site.okws')
        write('again/page', 'c @{rows}')
        up.ctl('publish', 'page', 'page')
        write('again/site.okws', 'no configuration')
        same([ask(up.port, content=f'{n} bob')[0] for n in (2, 3, 4)], [303] * 3)
        wait_until(lambda: 'run 2 serves' in up.events())
        same(ask(up.port), (200, 'c 1 ann\n2 bob\n3 bob\n4 bob\n'))
        told = status_of(up)
        same((told['run'], told['earlier']), (2, {'connections': 3, 'accepts': 3, 'launches': 1, 'publications': 3, 'logged': 3}))


def a_run_has_no_end_without_a_count():
    with Up('endless') as up:
        words = read(f'/proc/{status_of(up)["server"]["process"]}/cmdline').split('\0')
        assert '--always' in words and '--serve' not in words, words
        same(ask(up.port), ANN)
        same((up.ctl('stop'), up.ends()), ('stopping\n', 0))


def a_request_is_answered_before_the_end():
    with Up('grace') as up:
        told = []
        client = threading.Thread(target=lambda: told.append(ask(up.port, '/notes/slow/1')))
        client.start()
        wait_until(lambda: connected(up.port))
        up.process.terminate()
        client.join(30)
        same((told, up.ends()), ([ANN], 0))


def connected(port):
    with open('/proc/net/tcp') as f:
        return any(words[1] == f'0100007F:{port:04X}' and words[3] == '01' for words in map(str.split, f))


def a_second_signal_waits_for_nobody():
    with Up('hurry', '--grace', '60') as up, socket.create_connection(('127.0.0.1', up.port)):
        wait_until(lambda: connected(up.port))
        up.process.terminate()
        wait_until(lambda: 'being stopped' in up.events())
        up.process.terminate()
        same(up.process.wait(10), 0)


def a_box_can_be_ended_at_any_moment_of_its_start():
    for milliseconds in (0, 60, 120, 180, 240, 300, 400, 500):
        with Up('early', '--store', 'rows', '--log', 'log', wait=False) as up:
            wait_until(lambda: os.path.exists('early/run/console.lock'))
            threading.Event().wait(milliseconds / 1000)
            up.process.terminate()
            assert up.ends() in (0, -signal.SIGTERM), up.events()
            assert not connected(up.port)
    with Up('early', '--store', 'rows') as up:
        same(ask(up.port), ANN)


def a_refused_configuration_is_told_in_words():
    with Up('refused', site=SITE + 'grant note main 1\n') as up:
        same(up.ends(), 4)
        has(up.events(), 'refused: config line 13 rule 11', 'the configuration is refused', 'did you mean notes, not note?')
    same(os.listdir('refused/run'), ['console.lock'])


def what_another_holds_ends_the_box_with_its_status():
    with Up('held', '--store', 'rows') as up:
        with Up('held', '--store', 'rows', '--run', 'second') as second:
            same(second.ends(), 6)
            has(second.events(), 'store fault', 'another server has it')
        with Up('held', '--run', 'second', port=up.port) as second:
            same(second.ends(), 5)
            has(second.events(), 'net fault', 'another program listens there')
        same(ask(up.port), ANN)


def a_killed_server_ends_the_box_and_a_killed_child_is_told():
    with Up('dead') as up:
        told = status_of(up)
        child = told['children'][0]['process']
        os.kill(child, signal.SIGKILL)
        wait_until(lambda: f'child {child} has ended' in up.events())
        ask(up.port)
        same(ask(up.port), ANN)
        os.kill(told['server']['process'], signal.SIGKILL)
        same(up.ends(), 1)
        has(up.events(), 'killed by signal 9')


def orders_that_name_nothing_do_not_come_to_the_server():
    site = SITE + 'service none ./nothing\nuri /none none\n'
    with Up('orders', site=site) as up:
        has(up.ctl('relaunch', 'none', status=1), 'dead 3')
        has(up.ctl('relaunch', 'noone', status=1), 'no such template or service')
        has(up.ctl('publish', 'pag', 'site.okws', status=1), 'no such template or service')
        write('orders/big', 'x' * 300000)
        has(up.ctl('publish', 'page', 'big', status=1), 'more than 262144 bytes')
        has(up.ctl('publish', 'page', 'nowhere', status=1), 'No such file')
        has(up.ctl('status', status=1), '1 children of 2 services run', 'up 1, down 0, dead 1')
        for words in (['relaunch'], ['reboot', 'notes'], ['publish', 'page'], ['--nothing', 'status']):
            up.ctl(*words, status=2)
        for sent in (b'publish page 9\nend\n', b'nonsense\n', b'\xff\xfe\n', b'relaunch ' + b'x' * 5000 + b'\n'):
            with socket.socket(socket.AF_UNIX) as s:
                s.connect('orders/run/console')
                s.sendall(sent)
        same(ask(up.port), ANN)
        same(up.ctl('relaunch', 'notes'), 'relaunched 2\n')


def a_refused_page_has_no_commands_in_it():
    """A page with commands on its lines, which is too long, names no template, or comes before the site is ready."""
    page = 'x\nrelaunch notes\nstop\n'
    write('late/program', f'#!/bin/sh\ncase $1 in serve) sleep 3;; esac\nexec "{os.environ["OKWS"]}" "$@"\n')
    os.chmod('late/program', 0o755)
    write('late/page', page)
    write('late/big', page * 20000)
    with Up('late', '--okws', './program', wait=False) as up:
        wait_until(lambda: os.path.exists('late/run/console'))
        has(up.ctl('publish', 'page', 'page', status=1), 'the site is not ready')
        has(up.ctl('reload', status=1), 'the site is not ready')
        wait_until(lambda: 'serves' in up.events())
        has(up.ctl('publish', 'page', 'big', status=1), 'more than 262144 bytes')
        has(up.ctl('publish', 'pag', 'page', status=1), 'no such template')
        with socket.socket(socket.AF_UNIX) as s:
            s.connect('late/run/console')
            s.sendall(b'publish page many\nstop\n')
            has(s.makefile().read(), 'no command')
        same(ask(up.port), ANN)
        assert 'operator' not in up.events(), up.events()


def what_a_box_makes_is_its_users_alone():
    with Up('mine_alone', '--store', 'rows', '--log', 'log') as up:
        ask(up.port, content='2 bob')
        for name in ('rows.0', 'rows.0-wal', 'log', 'run', 'run/console'):
            same(os.stat(f'mine_alone/{name}').st_mode & 0o077, 0)


def a_file_that_takes_no_log_is_told_at_once():
    with Up('nolog', '--log', 'nowhere/log') as up:
        same(up.ends(), 7)
        has(up.events(), 'nowhere/log: No such file')


def a_limit_on_the_size_of_files_ends_no_box():
    with Up('limited') as up:
        with open(f"/proc/{status_of(up)['server']['process']}/status") as f:
            ignored = next(int(line.split()[1], 16) for line in f if line.startswith('SigIgn'))
        assert ignored >> (signal.SIGXFSZ - 1) & 1, ignored


def systemd_is_told():
    with socket.socket(socket.AF_UNIX, socket.SOCK_DGRAM) as s:
        s.bind('notices')
        s.settimeout(30)
        with Up('told', environment={'NOTIFY_SOCKET': os.path.abspath('notices')}) as up:
            has(s.recv(4096).decode(), 'READY=1', f'run 1 serves 127.0.0.1:{up.port}')
            up.process.terminate()
            same(s.recv(4096).decode(), 'STOPPING=1')


def words_that_are_none_are_refused():
    write('words/site.okws', SITE)
    for words in ([], ['site.okws'], ['site.okws', '--port', 'x'], ['site.okws', '--port', '0'], ['site.okws', '--port', '1', '--nothing']):
        run('okws-up', *words, status=2, cwd='words')
    for option, number in (('--count', '0'), ('--doors', '65'), ('--patience', '3601'), ('--patience', '-1')):
        run('okws-up', 'site.okws', '--port', '1', option, number, status=2, cwd='words')
    run('okws-ctl', '--site', 'one', '--run', 'another', 'status', status=2)
    run('okws-up', 'nowhere', '--port', '1', status=3, cwd='words')
    run('okws-ctl', 'status', status=3, cwd='words')


CHECKS = [
    a_site_is_kept_and_steered, a_status_has_the_servers_counts, an_older_servers_counts_are_not_known,
    a_status_does_not_wait_for_a_late_answer_which_is_no_others, paths_may_have_spaces, a_folder_is_one_boxs, what_a_killed_box_leaves_is_taken_over, what_is_no_socket_is_left_alone,
    template_files_that_fit_nothing_are_told, a_file_whose_name_is_no_text_is_told_on_one_line,
    a_hangup_publishes_what_changed_and_opens_the_log_anew, a_reload_says_what_it_did, a_reload_tells_of_another_configuration,
    the_next_run_has_the_same_site, a_run_has_no_end_without_a_count, a_request_is_answered_before_the_end, a_second_signal_waits_for_nobody,
    a_box_can_be_ended_at_any_moment_of_its_start, a_refused_configuration_is_told_in_words, what_another_holds_ends_the_box_with_its_status,
    a_killed_server_ends_the_box_and_a_killed_child_is_told, orders_that_name_nothing_do_not_come_to_the_server,
    a_refused_page_has_no_commands_in_it, what_a_box_makes_is_its_users_alone, a_file_that_takes_no_log_is_told_at_once,
    a_limit_on_the_size_of_files_ends_no_box, systemd_is_told,
    words_that_are_none_are_refused,
]
