"""Checks of okws-show, okws-explain, okws-draw and of completion."""
import os, re, shutil, subprocess
import okws_frames, okws_rules
from common import ROOT, TOOLS, Skipped, has, read, run, same, write

EXAMPLES = os.path.join(ROOT, 'examples')
SHOWN = """okws 1
proxy main
table main msgs id INT KEY who TEXT note TEXT
table main spare a BYTES
query main 1 select who from msgs where id = ?1 and note <> 'x FROM spare' order by who
query main 2 INSERT INTO msgs (id, who, note) VALUES (?1, ?2, ?3)
query main 3 UPDATE msgs SET note = 'WHERE who = 1'
query main 4 DELETE FROM msgs
query main 5 SELECT id FROM msgs LIMIT 3
query main 6 SELECT id FROM msgs
query main 7 SELECT a FROM spare
service guest /bin/true a word
service other okws-run true
uri /guest guest
uri /guest/more guest
grant guest main 1 2 3 4
grant other main 5 6
template page
template secret
read guest page
log guest
"""


def explained(words, *files, status=1):
    """What okws-explain makes of what the program prints."""
    printed = subprocess.run([os.environ['OKWS'], *words], stdout=subprocess.PIPE, stdin=subprocess.DEVNULL, text=True, timeout=60).stdout
    return run('okws-explain', *files, status=status, stdin=None, input=printed)


def a_compartment_is_on_one_screen():
    write('shown.okws', SHOWN)
    found = run('okws-show', 'shown.okws', 'guest')
    has(found, 'program    /bin/true a word', 'confined   no\n', 'paths      /guest /guest/more', 'templates  page', 'log        yes',
        'msgs: reads who; tests id, note; sorts by who\n', 'msgs: adds rows\n', 'msgs: sets note\n', 'msgs: takes rows away\n')
    assert 'other' not in found and len(found.splitlines()) < 24, found


JOINED = """okws 1
proxy main
table main msgs id INT KEY who TEXT note TEXT
table main ON id INT KEY msg INT JOIN TEXT
query main 1 SELECT msgs.who, ON.JOIN FROM msgs JOIN ON ON msgs.id = ON.msg WHERE ON.JOIN <> 'x FROM y' ORDER BY msgs.note
query main 2 SELECT ON.id FROM ON JOIN msgs ON msgs.id = ON.msg WHERE ON.id = ?1
service guest /bin/true
uri /guest guest
grant guest main 1 2
"""


def a_join_reads_two_tables():
    write('joined.okws', JOINED)
    found = [' '.join(line.split()) for line in run('okws-show', 'joined.okws').splitlines()]
    for line in ('msgs and ON: reads msgs.who, ON.JOIN; joins on msgs.id, ON.msg; tests ON.JOIN; sorts by msgs.note',
                 'id INT KEY tested by guest', 'who TEXT read by guest', 'note TEXT tested by guest',
                 'id INT KEY read by guest; tested by guest', 'msg INT tested by guest', 'JOIN TEXT read by guest; tested by guest'):
        assert line in found, (line, found)
    odd = [line for line in found if 'has no LIMIT' in line]
    assert len(odd) == 1 and odd[0].startswith('guest: query main 1 '), odd


def a_text_may_have_other_ends_of_lines():
    write('lines.okws', f"okws 1\nproxy main\ntable main m who TEXT\nquery main 1 SELECT who FROM m WHERE who = 'a{chr(0x2028)}b{chr(0x85)}c' LIMIT 1\n")
    has(run('okws-show', 'lines.okws'), 'query main 1: granted to nobody')


def tables_tell_who_uses_which_column():
    write('shown.okws', SHOWN)
    found = [' '.join(line.split()) for line in run('okws-show', 'shown.okws').splitlines()]
    for line in ('id INT KEY read by other; tested by guest', 'who TEXT read by guest; tested by guest', 'note TEXT tested by guest; set by guest',
                 'rows added by guest; taken away by guest', 'a BYTES -'):
        assert line in found, (line, found)


def what_is_odd_is_told():
    write('shown.okws', SHOWN)
    told = [sentence.strip() for sentence in run('okws-show', 'shown.okws').split('\nodd\n')[1].splitlines()]
    wanted = ["guest: it isn't confined", 'guest: query main 3 has no WHERE', 'guest: query main 4 has no WHERE', 'other: it owns no path',
              'other: query main 6 has no LIMIT', 'query main 7: granted to nobody', 'template secret: read by nobody']
    found = [sentence for sentence in told if 'no program okws-run' not in sentence]
    assert len(found) == len(wanted) and all(map(str.startswith, found, wanted)), told


CONFINED = """okws 1
service closed okws-run --read pages --memory 64 --seconds 5 --env A=b /bin/true
service open okws-run --network --write . --run /bin/sh --read pages ./program
service other bwrap --unshare-all /bin/true
uri /closed closed
uri /open open
uri /other other
"""


def what_okws_run_gives_is_shown():
    write('confined/site.okws', CONFINED)
    os.makedirs('confined/pages', exist_ok=True)
    found = run('okws-show', 'site.okws', cwd='confined')
    has(found, 'confined   by okws-run: reads pages; has in its environment A=b; has 64 MiB; has 5 s a dialog\n',
        'confined   by okws-run: reads pages; writes .; starts /bin/sh; has the network\n', 'confined   by bwrap, whose words are not read here\n')
    told = found.split('\nodd\n')[1]
    has(told, 'open: it may read ., where', 'open: it may write .\n', 'open: it may write its own program ./program', 'open: it may start /bin/sh', 'open: it has the network')
    assert 'closed: it' not in told and 'other: it' not in told, told


def a_refused_configuration_is_shown_in_words():
    write('bad.okws', 'okws 1\nproxy main\nservice guest ./g\ngrant gest main 1\n')
    has(run('okws-show', 'bad.okws', status=4), 'bad.okws:4: grant gest main 1', 'rule 11 Undeclared', 'did you mean guest, not gest?')
    run('okws-show', 'nowhere', status=3)
    write('shown.okws', SHOWN)
    run('okws-show', 'shown.okws', 'nobody', status=2)


GUESSED = [
    ('Service guest ./g', 'rule 4 UnknownDirective', 'did you mean service, not Service?'),
    ('serivce guest ./g', 'rule 4 UnknownDirective', 'did you mean service, not serivce?'),
    ('query main 1 SELECT hwo FROM msgs', 'rule 15 QueryRefused', 'did you mean who, not hwo?'),
    ('query main 1 SELCT id FROM msgs', 'rule 15 QueryRefused', 'did you mean SELECT, not SELCT?'),
    ('query main 1 SELECT id FROM mails', 'rule 15 QueryRefused', 'mails is no keyword, and no table or column'),
    ('uri /guest later', 'rule 11 Undeclared', 'later is declared in line 5'),
    ('retry 1001', 'rule 7 BadNumber', ''),
]


def refusals_are_explained_with_a_guess():
    for line, rule, meant in GUESSED:
        write('guessed.okws', f'okws 1\nproxy main\ntable main msgs id INT KEY who TEXT\n{line}\nservice later ./g\n')
        has(explained(['check', 'guessed.okws'], 'guessed.okws'), f'guessed.okws:4: {line}\n', rule, meant)
    write('guessed.okws', 'okws 1\n' + '#' * 4194304)
    has(explained(['check', 'guessed.okws'], 'guessed.okws'), 'guessed.okws: rule 16 TooMany')


def a_script_is_explained_frame_by_frame():
    site, script = f'{EXAMPLES}/site.okws', f'{EXAMPLES}/one_dialog.script'
    has(explained(['play', site, script], site, script, status=0),
        'guest 1 heard Boot of service 0, incarnation 1, token for proxy 0 0000000000000001ade0b876903df1a0e56a5d40',
        'heard Opened session 0', "heard Rows 1, 'ann'; 2, 'bob'", 'answer 0 HTTP/1.1 200 OK')
    write('bad.script', 'launch guest\nrelunch guest\n')
    has(explained(['play', site, 'bad.script'], site, 'bad.script'), 'bad.script:2: relunch guest', 'rule 1 BadLine', 'did you mean relaunch')
    write('bad.script', 'launch gest\n')
    has(explained(['play', site, 'bad.script'], site, 'bad.script'), 'bad.script:1: launch gest', 'rule 2 Undeclared', 'did you mean guest')


def what_a_server_tells_of_a_service_is_explained():
    """The lines are those of okws(1)."""
    write('shown.okws', SHOWN)
    for line, words in {
        'okws: other 3: ended by signal 9': 'other, incarnation 3: ended by signal 9',
        'okws: other 3: could not be started: No such file or directory': 'other, incarnation 3: could not be started: No such file or directory',
        'okws: other: given up after 3 tries': 'until it is relaunched',
        'store fault': 'a store of rows',
        'refused 2 1': 'no command',
    }.items():
        has(run('okws-explain', 'shown.okws', status=1, stdin=None, input=line + '\n'), words)
    same(run('okws-explain', 'shown.okws', stdin=None, input='okws: listening on 127.0.0.1:80\n'), 'okws: listening on 127.0.0.1:80\n')


def each_rule_of_the_page_has_words():
    """The page's sections are counted here by their headings, and explained by their numbers."""
    for part, kind in [('Configurations', 'config'), ('Scripts', 'script'), ('Denials', 'denied')]:
        section = read(f'{ROOT}/docs/RULES.md').split(f'\n## {part}\n')[1].split('\n## ')[0]
        for number, name in re.findall(r'^### (\d+) (\w+)', section, re.M):
            has(okws_rules.rule(kind, int(number)), f'rule {number} {name}: ')
    for number in range(1, 15):
        has(okws_rules.rule('query', number), f'rule {number} ')
    has(run('okws-explain', 'denied', '14'), 'rule 14 QueryNotGranted: ')
    has(run('okws-explain', 'console', '2'), 'no such template')
    has(run('okws-explain', 'console', '6'), '1000000 incarnations')
    has(run('okws-explain', 'status', '5'), 'port')
    for kind, number in [('config', '17'), ('query', '15'), ('denied', '9'), ('console', '7'), ('status', '1')]:
        run('okws-explain', kind, number, status=2)


FRAMES = [
    ('00000005 04 00000000', 'Opened session 0'),
    ('00000001 0c', 'Duplicate'),
    ('00000009 06 0000000000000001', 'Changed 1 rows'),
    ('00000006 43 04 70616765', 'Get page'),
    ('0000001f 42 0000 00000000 0002 03 01 0000000000000001 02 00000002 6379 02 00000000', "Call at proxy 0 of query 2 in session 0 (1, 'cy', '')"),
    ('0000000f 03 04 70616765 00000001 00000001 61', 'Push of page, edition 1: a'),
    ('00000002 09 0e', 'Denied by rule 14 QueryNotGranted'),
    ('00000015 45 00c8 0a 746578742f706c61696e 00 00000002 6f6b', 'Reply 200 text/plain ok'),
]


def frames_are_taken_apart():
    """The worked bytes of docs/okws-frames.7.md."""
    for digits, words in FRAMES:
        has(str(okws_frames.read(bytes.fromhex(digits))), words)
    for digits in ('00000001', '00000001 0d', '00000002 0c 00', '0000000a 42 0000 00000000 0001 01'):
        try:
            raise AssertionError(f'{digits}: {okws_frames.read(bytes.fromhex(digits))}')
        except okws_frames.NoFrame:
            pass
    same(run('okws-explain', 'frame', '00000005', '04', '00000000'), 'Opened session 0\n')
    run('okws-explain', 'frame', 'xy', status=2)


def a_run_is_drawn():
    page = run('okws-draw', f'{EXAMPLES}/site.okws', f'{EXAMPLES}/taken_over.script')
    for number, name in [(11, 'UnknownToken'), (12, 'StaleToken'), (14, 'QueryNotGranted'), (21, 'TemplateNotGranted'), (31, 'LogNotGranted')]:
        assert re.search(rf'<text class="bad"[^>]*>Denied by rule {number} ', page), number
        has(page, f'rule {number} {name}')
    for lane in ('client', 'okld', 'okd', 'guest', 'other', 'pubd', 'oklogd', 'main'):
        has(page, f'>{lane}</text>')
    has(page, 'other, incarnation 1', 'other, incarnation 2', '502 Bad Gateway (request 1)', '200 OK (request 2)', 'ended with status 0')
    same(len(re.findall('class="band"', page)), 3)


def a_refused_script_is_drawn_to_its_line():
    write('cut.script', 'launch guest\naccept GET /guest\ndialog 7\nlaunch other\n')
    page = run('okws-draw', f'{EXAMPLES}/site.okws', 'cut.script', status=9)
    has(page, 'rule 5 NoSuchRequest', 'cut.script:3: dialog 7', 'guest, incarnation 1', 'GET /guest')
    assert 'other, incarnation' not in page
    run('okws-draw', f'{EXAMPLES}/site.okws', status=2)
    run('okws-draw', f'{EXAMPLES}/site.okws', 'nowhere.script', status=3)


CRASHES = """launch guest
accept GET /guest
bytes guest 00000000
dialog 0
launch other
accept GET /other
dialog 1
relaunch other
end guest
"""


def each_answer_of_a_run_is_drawn():
    write('crashes.script', CRASHES)
    for script in (f'{EXAMPLES}/one_dialog.script', 'crashes.script'):
        played = subprocess.run([os.environ['OKWS'], 'play', f'{EXAMPLES}/site.okws', script], stdout=subprocess.PIPE, text=True, timeout=60)
        page = run('okws-draw', f'{EXAMPLES}/site.okws', script, status=played.returncode)
        drawn = re.findall(r' \(request \d+\)</text>', page)
        same(len(drawn), len(re.findall('^answer ', played.stdout, re.M)) + len(re.findall('^accept ', read(script), re.M)))


def the_page_shows_in_a_browser():
    browser = shutil.which('chromium')
    if not browser:
        raise Skipped('there is no chromium')
    write('page.html', run('okws-draw', f'{EXAMPLES}/site.okws', f'{EXAMPLES}/taken_over.script'))
    flags = ['--headless', '--no-sandbox', '--disable-gpu', '--disable-dev-shm-usage', '--user-data-dir=profile', '--screenshot=page.png']
    subprocess.run([browser, *flags, 'file://' + os.path.abspath('page.html')], stdin=subprocess.DEVNULL, capture_output=True, timeout=60)
    assert os.path.getsize('page.png') > 10000


COMPLETED = [
    (['okws', ''], 'check play drill serve help --version'),
    (['okws', 'ch'], 'check'),
    (['okws', 'check', 'o'], 'one.okws'),
    (['okws', 'play', 'one.okws', 'o'], 'one.okws one.script'),
    (['okws', 'serve', 'one.okws', '--port', '80', '--'], '--serve --always --doors --patience --store --log'),
    (['okws-show', ''], 'one.okws'),
    (['okws-ctl', 're'], 'relaunch reload'),
]


def words_are_completed():
    complete = f'. {TOOLS}/okws.bash; COMP_WORDS=("$@"); COMP_CWORD=$(($# - 1)); _okws; echo "${{COMPREPLY[*]}}"'
    for name in ('one.okws', 'one.script', 'one.txt'):
        write(f'complete/{name}', '')
    for words, wanted in COMPLETED:
        found = subprocess.run(['bash', '-c', complete, 'bash', *words], cwd='complete', capture_output=True, text=True, timeout=20).stdout
        same(sorted(found.split()), sorted(wanted.split()))


CHECKS = [
    a_compartment_is_on_one_screen, a_join_reads_two_tables, a_text_may_have_other_ends_of_lines, tables_tell_who_uses_which_column, what_is_odd_is_told, what_okws_run_gives_is_shown, a_refused_configuration_is_shown_in_words,
    refusals_are_explained_with_a_guess, a_script_is_explained_frame_by_frame, what_a_server_tells_of_a_service_is_explained,
    each_rule_of_the_page_has_words, frames_are_taken_apart,
    a_run_is_drawn, a_refused_script_is_drawn_to_its_line, each_answer_of_a_run_is_drawn, the_page_shows_in_a_browser, words_are_completed,
]
