"""The numbered rules of okws in words, from docs/RULES.md, and a guess at what a refused line was meant to be."""
import difflib, os, re
import okws_site

PAGE = os.path.join(okws_site.ROOT, 'docs', 'RULES.md')
PARTS = {'config': 'Configurations', 'script': 'Scripts', 'denied': 'Denials', 'query': 'Query texts'}
DIRECTIVES = ['proxy', 'table', 'row', 'query', 'service', 'retry', 'uri', 'grant', 'template', 'read', 'log']
SCRIPT_LINES = ['launch', 'relaunch', 'accept', 'dialog', 'bytes', 'end', 'publish', 'begin', 'install', 'boot', 'up', 'down', 'revoke']
QUERY_WORDS = ['SELECT', 'FROM', 'WHERE', 'AND', 'ORDER', 'BY', 'LIMIT', 'INSERT', 'INTO', 'VALUES', 'UPDATE', 'SET', 'DELETE', 'JOIN', 'ON']
UNDECLARED = 11      # of a configuration
QUERY_REFUSED = 15


def part_of(name):
    """A part of the page."""
    with open(PAGE, encoding='utf-8') as f:
        return f.read().split(f'\n## {PARTS[name]}\n', 1)[1].split('\n## ', 1)[0]


def rule(name, number):
    """A rule of a part in one paragraph, or None where the part has none of this number."""
    if name == 'query':
        row = re.search(rf'^\| {number} (\w+) \| ([^|]*) \| [^|]* \| (.*) \|$', part_of(name), re.M)
        return row and f'rule {number} {row[1]}: {row[3]}. An example that breaks it: {row[2]}'
    section = re.search(rf'^### {number} (\w+)[^\n]*\n(.*?)(?=^### |\Z)', part_of(name), re.M | re.S)
    if not section:
        return None
    text = re.sub(r'```.*?```', '', section[2], flags=re.S)
    return f'rule {number} {section[1]}: {" ".join(text.split())}'


def close(word, words):
    """The one of these words that this one was meant to be perhaps."""
    found = difflib.get_close_matches(word, [one for one in words if one != word], 1, 0.6)
    return found[0] if found else None


def guess(name, lines, line):
    """What a refused line may have been meant to be: a sentence, or None. `lines` are the configuration's."""
    before = [one for one in lines if name == 'script' or one.number < line.number]
    known = DIRECTIVES if name == 'config' else SCRIPT_LINES
    if line.words[0] not in known:
        small = line.words[0].lower()
        found = small if small in known else close(small, known)
        return f'did you mean {found}, not {line.words[0]}?' if found else None
    if name == 'config' and line.words[0] == 'query':
        return guess_of_query(before, line)
    declared = {words[1] for words in (one.words for one in before) if len(words) > 1 and words[0] in ('proxy', 'service', 'template')}
    for word in line.words[1:]:
        if word in declared or word.isdecimal() or word.startswith('/'):
            continue
        below = [one.number for one in lines if one.number > line.number and one.words[0] in ('proxy', 'service', 'template') and one.words[1:2] == [word]]
        if name == 'config' and below:
            return f'{word} is declared in line {below[0]}: move this line below it'
        if found := close(word, declared):
            return f'did you mean {found}, not {word}?'
    return None


def guess_of_query(before, line):
    """The first word of a query's text that is no keyword, table or column of its proxy, and the one that it was meant to be perhaps."""
    tables = [one.words for one in before if one.words[0] == 'table' and one.words[1:2] == line.words[1:2]]
    names = {word for words in tables for word in words[2:] if word not in ('INT', 'TEXT', 'BYTES', 'KEY')}
    text = ' '.join(line.words[3:])
    for word in re.findall(r"[A-Za-z_]\w*", re.sub(r"x?'(?:[^']|'')*'", ' ', text)):
        if word.upper() in QUERY_WORDS or word in names:
            continue
        found = close(word, names) or close(word.upper(), QUERY_WORDS)
        return f'did you mean {found}, not {word}?' if found else f'{word} is no keyword, and no table or column of {line.words[1]} that is declared above'
    return None


def refusal(line, config, script=None):
    """A printed refusal of a configuration or a script in words: the refused line, its rule, and a guess. None where the line is no such refusal."""
    refused = re.fullmatch(r'refused: (config|script) line (\d+) rule (\d+)', line)
    if not refused or (refused[1] == 'script' and not script):
        return None
    name, at, told = refused[1], int(refused[2]), rule(refused[1], int(refused[3]))
    path = config if name == 'config' else script
    if at == 0:
        return f'{path}: {told}'
    found = next((one for one in okws_site.lines_of(path) if one.number == at), None)
    meant = found and guess(name, list(okws_site.lines_of(config)), found)
    return f'{path}:{at}: {found.text if found else ""}\n  {told}' + (f'\n  {meant}' if meant else '')
