#!/usr/bin/env python3
"""Holds the program's parser against a plain recogniser of the whole language.

    tools/recogniser.py PROGRAM [COUNT]

runs the program on COUNT short texts (400 without it), of definitions or of a script, each made from the grammar and
then spoilt. Of each the program has to say that it is of the language, or to name its first wrong byte as the
recogniser does. That one knows the written grammar as data and tries every way on at once (Earley 1970): a text of
tokens begins some text of the language exactly while the chart is not empty. It shares no code and no idea with the
parser in crates/parse.
"""
from __future__ import annotations

import os
import random
import re
import sys
from collections.abc import Iterable, Iterator

from harness.arguments import parser_of
from harness.programs import replay
from harness.texts import in_bytes, in_characters

Way = tuple[str, ...]  # the symbols of one way of a rule
Token = tuple[int, set[str]]  # the place of a token, and what it can stand for
Item = tuple[str, Way, int, int]  # a rule's head, a way, how far it has come, and where it began
Chart = list[set[Item]]

RESERVED = set("""ALL AND AS ASSERTION BEGIN BETWEEN BY CHECK COMMIT CONSTRAINT CONSTRAINTS COUNT CREATE
DEFERRABLE DEFERRED DELETE DISTINCT EXISTS FALSE FOREIGN FROM GROUP HAVING IMMEDIATE IN INITIALLY INSERT INT
INTEGER INTO IS KEY MAX MIN NOT NULL ONLY OR PRIMARY READ REFERENCES ROLLBACK SELECT SET SUM TABLE TRUE UNIQUE
UNKNOWN UPDATE VALUES VARCHAR VERDICT WHERE WORK""".split())

# Quoted: a token; `name`, `number`, `width` (a number from 1 to 255), `text`: a kind of token; else a rule. `|` parts
# the ways.
RULES = """
defs = | def ';' defs
script = | name ':' event ';' script
def = 'CREATE' 'TABLE' name '(' elements ')' | 'CREATE' 'ASSERTION' name 'CHECK' '(' cond ')' attrs | insert
elements = element | element ',' elements
element = name type colcons | 'PRIMARY' 'KEY' '(' names ')' | named tabcon attrs
colcons = | colcon colcons
colcon = 'NOT' 'NULL' | 'PRIMARY' 'KEY' | named colrule colattrs
colrule = 'UNIQUE' | 'CHECK' '(' cond ')' | 'REFERENCES' name | 'REFERENCES' name '(' name ')'
colattrs = | when | when 'DEFERRABLE' | 'DEFERRABLE' | 'DEFERRABLE' when
named = | 'CONSTRAINT' name
tabcon = 'UNIQUE' '(' names ')' | 'CHECK' '(' cond ')' | 'FOREIGN' 'KEY' '(' names ')' 'REFERENCES' name columns
type = 'INTEGER' | 'INT' | 'VARCHAR' '(' width ')'
attrs = | when | when defer | defer | defer when
when = 'INITIALLY' mode
mode = 'DEFERRED' | 'IMMEDIATE'
defer = 'DEFERRABLE' | 'NOT' 'DEFERRABLE'
event = 'BEGIN' | 'BEGIN' 'READ' 'ONLY' | 'COMMIT' work | 'ROLLBACK' work | stmt
work = | 'WORK'
stmt = insert | 'UPDATE' name 'SET' set sets where | 'DELETE' 'FROM' name where
stmt = 'SELECT' selected 'FROM' name correlation_name where groups having
stmt = 'SET' 'CONSTRAINTS' 'ALL' mode | 'SET' 'CONSTRAINTS' names mode | 'VERDICT' name
selected = '*' | items
items = item | item ',' items
item = expr correlation_name
names = name | name ',' names
insert = 'INSERT' 'INTO' name columns 'VALUES' rows
columns = | '(' names ')'
rows = row | row ',' rows
row = '(' consts ')'
consts = const | const ',' consts
const = 'NULL' | text | number | sign number
sets = | ',' set sets
set = name '=' 'NULL' | name '=' expr
where = | 'WHERE' cond
cond = bterm | bterm 'OR' cond
bterm = bfact | bfact 'AND' bterm
bfact = btest | 'NOT' btest
btest = bprim | bprim 'IS' truth | bprim 'IS' 'NOT' truth
truth = 'TRUE' | 'FALSE' | 'UNKNOWN'
bprim = '(' cond ')' | 'EXISTS' '(' query ')' | expr cmp expr | expr 'IS' 'NULL' | expr 'IS' 'NOT' 'NULL'
bprim = expr not 'BETWEEN' expr 'AND' expr | expr not 'IN' '(' exprs ')'
not = | 'NOT'
exprs = expr | expr ',' exprs
cmp = '=' | '<>' | '<' | '<=' | '>' | '>='
expr = term | term sign expr
term = factor | factor '*' term
factor = prim | sign prim
sign = '+' | '-'
prim = number | text | colref | agg | '(' expr ')' | '(' query ')'
colref = name | name '.' name
agg = 'COUNT' '(' '*' ')' | function '(' quantifier colref ')'
function = 'COUNT' | 'SUM' | 'MIN' | 'MAX'
quantifier = | 'ALL' | 'DISTINCT'
query = 'SELECT' listed 'FROM' name correlation_name where group having
listed = '*' | expr
correlation_name = | name | 'AS' name
group = | 'GROUP' 'BY' colref
groups = | 'GROUP' 'BY' colrefs
colrefs = colref | colref ',' colrefs
having = | 'HAVING' cond
"""

GRAMMAR: dict[str, list[Way]] = {}
for rule in RULES.strip().splitlines():
    head, ways = rule.split(' = ', 1) if ' = ' in rule else (rule.split(' =')[0], rule.split(' =', 1)[1])
    for way in re.split(r"\s\|\s|^\|\s", ways if ways.startswith(' ') else ' ' + ways):
        GRAMMAR.setdefault(head, []).append(tuple(way.split()))
KINDS = {'name', 'number', 'width', 'text'}
START = {'S': 'script', 'D': 'defs', 'E': 'event'}
FAULT = re.compile(r'(?:DEFS|SCRIPT): REFUSED \d+ - SYNTAX (\d+)$|.* TOO DEEP .*$', re.MULTILINE)

BETWEEN_TOKENS = re.compile(r'(?:[ \t\r\n]|--[^\n]*)*')
TOKEN = re.compile(r"(?P<word>[A-Za-z][A-Za-z0-9_]*)|(?P<number>[0-9]+)|(?P<text>'(?:[^\0-\x1f'\x7f]|'')*')"
                   r"|(?P<mark><>|<=|>=|[(),;:.*+\-=<>])")


def is_utf8(text: str) -> bool:
    """Whether the bytes of a text, each of which is one character here, spell characters."""
    try:
        in_characters(text)
    except UnicodeDecodeError:
        return False
    return True


def tokens(text: str) -> list[Token]:
    """(place, what it can stand for); a bad token stands for nothing and is the last."""
    at = 0
    found: list[Token] = []
    while True:
        between = BETWEEN_TOKENS.match(text, at)
        at = between.end() if between else at
        if at == len(text):
            return found
        m = TOKEN.match(text, at)
        if m is None or len(m.group('word') or '') > 128 or (m.group('number') and int(m.group('number')) > 10 ** 15):
            return found + [(at, set())]
        if m.group('text') and (text[m.end():m.end() + 1] == "'" or not is_utf8(m.group('text'))):
            return found + [(at, set())]
        word, number = (m.group('word') or '').upper(), m.group('number')
        if word:
            can = {repr(word)} if word in RESERVED else {'name'}
        elif number:
            can = {'number'} | ({'width'} if 1 <= int(number) <= 255 else set())
        else:
            can = {'text'} if m.group('text') else {repr(m.group('mark'))}
        found.append((at, can))
        at = m.end()


def closed(chart: Chart, i: int) -> None:
    """All items of column i that its first ones lead to. An item is a rule's head, way, dot and origin."""
    work = list(chart[i])
    while work:
        head, way, dot, origin = work.pop()
        if dot < len(way) and way[dot] in GRAMMAR:
            new = [(way[dot], w, 0, i) for w in GRAMMAR[way[dot]]]
            new += [(head, way, dot + 1, origin) for done in chart[i]
                    if done[0] == way[dot] and done[2] == len(done[1]) and done[3] == i]
        elif dot == len(way):
            new = [(h, w, d + 1, o) for h, w, d, o in chart[origin] if d < len(w) and w[d] == head]
        else:
            new = []
        for item in new:
            if item not in chart[i]:
                chart[i].add(item)
                work.append(item)


def place(start: str, text: str) -> int | None:
    """None where the text is one of the language; else the offset of the first token that no text has there, or the
    length."""
    chart: Chart = [{('whole', (start,), 0, 0)}]
    closed(chart, 0)
    for i, (at, can) in enumerate(tokens(text)):
        chart.append({(h, w, d + 1, o) for h, w, d, o in chart[i] if d < len(w) and w[d] in can})
        if not chart[-1]:
            return at
        closed(chart, i + 1)
    return None if ('whole', (start,), 1, 0) in chart[-1] else len(text)


def heights() -> dict[str, int]:
    """How deep the shortest derivation of each rule is."""
    height: dict[str, int] = {}
    while len(height) < len(GRAMMAR):
        for head, ways in GRAMMAR.items():
            known = [1 + max((height.get(s, 0) for s in way), default=0) for way in ways
                     if all(s not in GRAMMAR or s in height for s in way)]
            if head not in height and known:
                height[head] = min(known)
    return height


HEIGHT = heights()


def lowest(ways: Iterable[Way]) -> Way:
    return min(ways, key=lambda way: max((HEIGHT.get(s, 0) for s in way), default=0))


SPELLINGS = {
    'name': ['A', 'Bc', 'T_1'], 'number': ['0', '7', '1000000000000000'], 'width': ['1', '255'],
    'text': ["''", "'x'", "'it''s'", in_bytes("'Žofie'"), in_bytes("'\x80\u2028\uffff\U0001d11e'")],
}
OTHERS = sorted(RESERVED) + ['(', ')', ',', ';', '*', '-', '=', 'A', '5', '300', "'x", '?', '1000000000000001']
# Texts that are none: a byte alone, a longer form, half of a pair, one above U+10FFFF, one cut short, and controls.
ILL_FORMED = ["'\x80'", "'\xc0\xaf'", "'\xed\xa0\x80'", "'\xf4\x90\x80\x80'", "'\xe2\x82'", "'\x7f'", "'\t'"]


def made(rng: random.Random, symbol: str, depth: int = 0) -> list[str]:
    """A random text of the symbol, as a list of spellings."""
    if symbol.startswith("'"):
        return [symbol[1:-1]]
    if symbol in KINDS:
        return [rng.choice(SPELLINGS[symbol])]
    ways = GRAMMAR[symbol]
    way = rng.choice(ways if depth < 9 else [lowest(ways)])
    return [spelling for part in way for spelling in made(rng, part, depth + 1)]


def spoilt(rng: random.Random, spellings: Iterable[str]) -> list[str]:
    spellings = list(spellings)
    for _ in range(rng.choice([0, 1, 1, 2])):
        i, other = rng.randrange(len(spellings) + 1), rng.choice(OTHERS + ILL_FORMED)
        how = rng.randrange(4)
        if how == 0:
            spellings[i:i + 1] = []
        elif how == 1:
            spellings[i:i] = [other]
        elif how == 2:
            spellings[i:i + 1] = [other]
        else:
            spellings = spellings[:i]
    return spellings


def texts(count: int) -> Iterator[tuple[str, str]]:
    """Short texts with the letter of what they are: D definitions, S a script. An event is the one of a script."""
    rng = random.Random(1992)
    seen: set[tuple[str, str]] = set()
    while len(seen) < count:
        letter = rng.choice('SSDDE')
        text = ' '.join(spoilt(rng, made(rng, START[letter])))
        if letter == 'E':
            letter, text = 'S', f'A: {text};'
        if len(text) < 160 and (letter, text) not in seen:
            seen.add((letter, text))
            yield letter, text


def place_named(program: str, letter: str, text: str) -> int | None:
    """The place that the program names in a text, or None where the text is of the language for it."""
    fault = FAULT.search(replay(program, *(text if letter == whose else '' for whose in 'DS')).error)
    return None if fault is None else int(fault.group(1) or -1)


def main() -> None:
    parser = parser_of(__doc__)
    parser.add_argument('program')
    parser.add_argument('count', nargs='?', type=int, default=400)
    given = parser.parse_args()
    program, count = os.path.abspath(given.program), given.count
    read = different = 0
    for letter, text in texts(count):
        expected, named = place(START[letter], text), place_named(program, letter, text)
        read += expected is None
        if named != expected:
            different += 1
            print(f'{letter} {text}\n  the recogniser: {expected}; the program: {named}')
    print(f'{count} texts, {read} of the language: {different} differ')
    sys.exit(different > 0)


if __name__ == '__main__':
    main()
