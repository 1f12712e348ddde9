"""Statements of a site's queries: which columns of which tables they read, test and set. Their texts are in the canonical form that `okws check` prints."""
import dataclasses, re

TOKEN = re.compile(r"x?'(?:[^']|'')*'|<=|>=|<>|[=<>(),]|\?\d+|-?\d+|\w+(?:\.\w+)?")
COMPARING = ('=', '<>', '<', '<=', '>', '>=')
BEFORE_TABLE = {'SELECT': 'FROM', 'INSERT': 'INTO', 'UPDATE': 'UPDATE', 'DELETE': 'FROM'}


@dataclasses.dataclass
class Statement:
    """A statement: the columns that it gives, that its conditions compare, by `=` among them, on which it joins its two tables, by which it orders
    its rows, and which it sets. Those of a join are TABLE.COLUMN."""
    kind: str
    tables: list
    reads: list
    tests: list
    equals: list
    joins: list
    sorts: list
    sets: list
    has_where: bool
    has_limit: bool

    def of(self, table, columns):
        """Those of the statement's columns that are of one of its tables, by their names there."""
        return [column.removeprefix(table + '.') for column in columns if len(self.tables) == 1 or column.startswith(table + '.')]


def between(tokens, first, *ends):
    """The tokens behind a keyword, to the first of these or the end; none without the keyword."""
    if first not in tokens:
        return []
    found = tokens[tokens.index(first) + 1:]
    return found[:min([found.index(end) for end in ends if end in found], default=len(found))]


def columns_before(tokens, operators):
    return [column for column, operator in zip(tokens, tokens[1:]) if operator in operators]


def read(text):
    """A statement, taken apart. A text in it is one token with its quotes, so that no word there passes for a keyword."""
    tokens = TOKEN.findall(text)
    kind = tokens[0]
    where = between(tokens, 'WHERE', 'ORDER', 'LIMIT')
    behind = between(tokens, BEFORE_TABLE[kind])
    is_join = '.' in tokens[1]      # FROM t JOIN t ON q = q, where JOIN and ON may be names too
    return Statement(
        kind=kind,
        tables=[behind[0], behind[2]] if is_join else behind[:1],
        reads=[word for word in between(tokens, 'SELECT', 'FROM') if word != ','],
        tests=columns_before(where, COMPARING),
        equals=columns_before(where, ('=',)),
        joins=[behind[4], behind[6]] if is_join else [],
        sorts=between(tokens, 'BY', 'LIMIT'),
        sets=columns_before(between(tokens, 'SET', 'WHERE'), ('=',)),
        has_where=bool(where),
        has_limit='LIMIT' in tokens,
    )
