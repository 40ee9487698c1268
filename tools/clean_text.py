"""Reads a text that is meant as GML and is not a document into pairs, and says what it took for what. Standard library alone.

The guesses, in the order of a file: another encoding and a byte order mark are undone; what comes before `graph [` and is not GML
is left out; `=` or `:` after a key, `,` or `;` after a value and comments of other languages are left out; several words before a
value are one key; words where a value must be are a text; a quote ends a string only where a pair, a bracket or the line's
end can follow, with an even number of quotes after it on the line; a string that is not closed ends with its line where the
next line looks like GML; missing and surplus brackets are added and left out."""
from __future__ import annotations

import re
from typing import Callable, Optional

from explain_graph import OTHER_FORMATS
from gml_text import KEY, MOST_AROUND, NUMBER, Pair, scan, words_after_strings

Say = Callable[[Optional[int], str], None]
WORD = re.compile(rb'[^ \t-\r\[\]"#]+')
GAP = re.compile(rb"(?:[ \t-\r]|\xc2\xa0|#[^\r\n]*)+")
SEGMENT = re.compile(rb'[^\r\n\[\]"#]+')
REST = re.compile(rb"[^\r\n]*")
FOREIGN_COMMENT = re.compile(rb"(?://|--|%)[^\r\n]*|/\*.*?\*/", re.DOTALL)
ENDS_STRING = re.compile(rb'[ \t,;]*(?:\]|#|$)|[ \t]*[,;]?[ \t]+[^\s"\[\]#]+(?:[ \t]+[^\s"\[\]#]+)*[ \t]*(?:["\[\]#]|$)')
LIKE_GML = re.compile(rb'[ \t]*(?:\]|[A-Za-z]\w*[ \t]*(?:["\[\r\n]|[ \t][-+.\d]))')
GRAPH_START = re.compile(rb"^[ \t]*(?i:graph)\s*\[", re.MULTILINE)
BARE_VALUES = {b"true", b"false", b"yes", b"no", b"none", b"null"}
ONE_WORD_KEYS = {b"id", b"label", b"source", b"target", b"directed", b"name", b"value", b"weight", b"type", b"fill", b"x", b"y", b"w", b"h"}
ENDS_OF_EDGE = {b"id", b"source", b"target"}


class NoGraph(ValueError):
    """No graph for the program can be made of the file."""


def decoded_file(data: bytes, say: Say) -> bytes:
    """The file in UTF-8 without a byte order mark. Fails with NoGraph where it is of another format."""
    for mark, name in ((b"\xff\xfe\0\0", "utf-32"), (b"\0\0\xfe\xff", "utf-32"), (b"\xff\xfe", "utf-16"), (b"\xfe\xff", "utf-16")):
        if data.startswith(mark):
            return _recoded(data, name, say)
    if data.startswith(b"\xef\xbb\xbf"):
        say(0, "the byte order mark is left out")
        data = data[3:]
    for start, name, hint in OTHER_FORMATS:
        if re.match(start, data):
            raise NoGraph(f"the file looks like {name}: {hint}")
    if b"\0" in data[:200] and not scan(data).is_whole:
        return _recoded(data, "utf-16-le" if data[1:2] == b"\0" else "utf-16-be", say)
    return data


def _recoded(data: bytes, name: str, say: Say) -> bytes:
    try:
        text = data.decode(name)
    except UnicodeDecodeError as fault:
        raise NoGraph("the file is not text in UTF-8, UTF-16 or UTF-32") from fault
    say(0, f"{name.upper()} is written as UTF-8")
    return text.encode("utf-8", "replace")


def read_pairs(data: bytes, say: Say) -> Pair:
    """The pairs of the file, as the list of the document. What is a document is read as it is, but where a word directly follows a
    string: there a quote was meant to be inside."""
    found = scan(data)
    if found.is_whole and not words_after_strings(data):
        return found.top
    start = _prose_before(data, say)
    top = _Reader(data, start, say).document()
    _shallow(top, say)
    return top


def _prose_before(data: bytes, say: Say) -> int:
    """Where the graph begins, if what comes before it is not GML; else 0."""
    graph = GRAPH_START.search(data)
    if graph is None or scan(data[:graph.start()]).fault is None:
        return 0
    say(0, "what comes before `graph [` is not GML and is left out")
    return graph.start()


def _shallow(top: Pair, say: Say) -> None:
    """Leaves out the lists that are inside too many others."""
    lists = [(top, -1)]
    while lists:
        pair, around = lists.pop()
        if around == MOST_AROUND:
            for inner in [one for one in pair.pairs if one.kind == "list"]:
                say(inner.at, f"a list inside more than {MOST_AROUND} others is left out")
            pair.value = [one for one in pair.pairs if one.kind != "list"]
        lists += [(one, around + 1) for one in pair.pairs if one.kind == "list"]


class _Reader:
    """Reads pairs from a place of a text on."""

    def __init__(self, data: bytes, place: int, say: Say) -> None:
        self.data = data
        self.place = place
        self.say = say
        self.top = Pair(b"", "list", [])
        self.open: list[Pair] = []

    def document(self) -> Pair:
        self.skip()
        while self.place < len(self.data):
            self.step()
            self.skip()
        for pair in self.open:
            self.say(pair.at, f"the list `{pair.key.decode('ascii')}` is closed at the end of the file")
        return self.top

    def skip(self) -> None:
        """Skips gaps, separators between pairs, and comments of other languages."""
        while True:
            gap = GAP.match(self.data, self.place)
            foreign = FOREIGN_COMMENT.match(self.data, gap.end() if gap else self.place)
            mark = re.compile(rb"[,;]").match(self.data, gap.end() if gap else self.place)
            found = foreign or mark or gap
            if found is None:
                return
            if foreign:
                self.say(foreign.start(), "a comment of another language is left out")
            elif mark:
                self.say(mark.start(), f"`{mark.group().decode('ascii')}` between pairs is left out")
            elif b"\xc2\xa0" in gap.group():
                self.say(gap.start(), "a no-break space is taken for a space")
            self.place = found.end()

    def step(self) -> None:
        letter = self.data[self.place:self.place + 1]
        if letter == b"]":
            self.close()
        elif letter == b"[":
            self.say(self.place, "a list without a key is given the key `list`")
            self.value(b"list", self.place)
        elif letter == b'"':
            at = self.place
            name = self.string()
            self.say(at, "a string where a key must be is taken for the key")
            self.rest_of_key([(at, name.replace(b" ", b"_"))])
        else:
            self.segment()

    def close(self) -> None:
        if self.open:
            self.open.pop()
        else:
            self.say(self.place, "a `]` without a list is left out")
        self.place += 1

    def segment(self) -> None:
        """Words up to the next bracket, quote, comment or line end: pairs of a key and a number, and at last a key or a text."""
        found = SEGMENT.match(self.data, self.place)
        text = found.group().replace(b"\xc2\xa0", b"  ")
        if text != found.group():
            self.say(self.place, "a no-break space is taken for a space")
        words = [(self.place + word.start(), word.group()) for word in WORD.finditer(text)]
        self.place = found.end()
        while words:
            words = self.pair(words)

    def pair(self, words: list[tuple[int, bytes]]) -> list[tuple[int, bytes]]:
        """One pair from the words; the words that are left."""
        words = self.without_marks(words)
        if len(words) == 1:
            return self.rest_of_key(words)
        numbers = next((place for place, (_, word) in enumerate(words) if place and self.number(word)), None)
        if numbers == 1:
            return self.numbers(words)
        if words[0][1].lower() in ONE_WORD_KEYS or words[1][1].lower().rstrip(b",;") in BARE_VALUES:
            return self.bare(words)
        if numbers is not None:
            return self.numbers([self.joined(words[:numbers])] + words[numbers:])
        if self.value_follows():
            return self.rest_of_key([self.joined(words)])
        return self.bare(words)

    def without_marks(self, words: list[tuple[int, bytes]]) -> list[tuple[int, bytes]]:
        """The words without `=` or `:` after the key."""
        at, word = words[0]
        mark = re.fullmatch(rb"([^=:]+)([=:]+>?)(.*)", word)
        if mark:
            self.say(at, f"`{mark.group(2).decode('ascii')}` after a key is left out")
            rest = [(at + mark.start(3), mark.group(3))] if mark.group(3) else []
            return [(at, mark.group(1)), *rest, *words[1:]]
        if len(words) > 1 and re.fullmatch(rb"[=:]+>?", words[1][1]):
            self.say(words[1][0], f"`{words[1][1].decode('ascii')}` after a key is left out")
            return [words[0], *words[2:]]
        return words

    def joined(self, words: list[tuple[int, bytes]]) -> tuple[int, bytes]:
        """Several words as one key."""
        if len(words) > 1:
            text = b" ".join(word for _, word in words).decode("utf-8", "replace")
            self.say(words[0][0], f"the words `{text}` are taken for one key")
        return words[0][0], b"_".join(word for _, word in words)

    def number(self, word: bytes) -> Optional[bytes]:
        """The number that a word is, a decimal comma and a mark at its end aside."""
        word = word.rstrip(b",;")
        point = re.sub(rb"^([+-]?\d+),(\d+)$", rb"\1.\2", word)
        return point if NUMBER.fullmatch(point) else None

    def numbers(self, words: list[tuple[int, bytes]]) -> list[tuple[int, bytes]]:
        """A key and a number; several numbers are a text."""
        (at, key), (value_at, word) = words[:2]
        total = next((place for place, (_, other) in enumerate(words[1:]) if not self.number(other)), len(words) - 1)
        if total > 1:
            return self.text(words[0], words[1:1 + total], words[1 + total:])
        number = self.number(word)
        if number != word:
            self.say(value_at, f"`{word.decode('utf-8', 'replace')}` is written `{number.decode('ascii')}`")
        self.add(key, "number", number, at, value_at)
        return words[2:]

    def bare(self, words: list[tuple[int, bytes]]) -> list[tuple[int, bytes]]:
        """A key and a text without quotes: up to the next key of one word, or all that is left; its last word is a key if a value follows."""
        if words[1][1].lower().rstrip(b",;") in BARE_VALUES:
            return self.text(words[0], words[1:2], words[2:])
        stop = next((place for place, (_, word) in enumerate(words) if place > 1 and word.lower() in ONE_WORD_KEYS), None)
        if stop is None:
            stop = len(words) - 1 if self.value_follows() and len(words) > 2 else len(words)
        if stop == 2 and len(words) == 2 and self.value_follows():
            return self.rest_of_key([self.joined(words)])
        return self.text(words[0], words[1:stop], words[stop:])

    def text(self, key: tuple[int, bytes], words: list[tuple[int, bytes]], rest: list[tuple[int, bytes]]) -> list[tuple[int, bytes]]:
        text = b" ".join(word for _, word in words).rstrip(b",;")
        if len(text) > 1 and text[:1] == text[-1:] == b"'":
            text = text[1:-1]
        self.say(words[0][0], f'`{text.decode("utf-8", "replace")[:40]}` is written as a string')
        self.add(key[1], "string", text.replace(b'"', b"&quot;"), key[0], words[0][0])
        return rest

    def value_follows(self) -> bool:
        """Whether a string or a list begins next, on this line."""
        return self.data[self.place:self.place + 1] in (b'"', b"[")

    def rest_of_key(self, words: list[tuple[int, bytes]]) -> list[tuple[int, bytes]]:
        """A key whose value begins after the words: a string, a list, or a number on a later line; else it has none."""
        at, key = words[0]
        start = self.place
        comment = re.compile(rb"[ \t]*(#[^ \t\r\n\]]+)").match(self.data, start)
        gap = GAP.match(self.data, start)
        self.place = gap.end() if gap else start
        word = WORD.match(self.data, self.place)
        if self.value_follows():
            self.value(key, at)
        elif word and self.number(word.group()):
            self.place = word.end()
            self.add(key, "number", self.number(word.group()), at, word.start())
        elif comment:
            self.place = comment.end()
            self.text(words[0], [(comment.start(1), comment.group(1))], [])
        else:
            self.say(at, f'the key `{key.decode("utf-8", "replace")}` has no value and is given the empty string')
            self.add(key, "string", b"", at, at)
        return []

    def value(self, key: bytes, at: int) -> None:
        """A string or a list, which begins here."""
        start = self.place
        if self.data[start:start + 1] == b'"':
            self.add(key, "string", self.string(), at, start)
            return
        self.place += 1
        self.open.append(self.add(key, "list", [], at, start))

    def add(self, key: bytes, kind: str, value: object, at: int, value_at: int) -> Pair:
        name = re.sub(rb"\W", b"_", key.decode("utf-8", "replace").encode("ascii", "replace"))
        name = name if KEY.fullmatch(name) else b"key_" + name.lstrip(b"_")
        if name != key:
            self.say(at, f"the key `{key.decode('utf-8', 'replace')}` is written `{name.decode('ascii')}`")
        pair = Pair(name, kind, value, at, value_at)
        (self.open[-1] if self.open else self.top).pairs.append(pair)
        return pair

    def string(self) -> bytes:
        """The text of the string that begins here, with &quot; for each quote inside it."""
        start = end = self.place + 1
        while True:
            quote = self.data.find(b'"', end)
            line_end = REST.match(self.data, start).end()
            if quote < 0 or (quote > line_end and end == start and LIKE_GML.match(self.data, self.after_line(line_end))):
                return self.unclosed(start, line_end)
            rest = REST.match(self.data, quote + 1).group()
            if not rest.count(b'"') % 2 and ENDS_STRING.match(rest) or not rest.count(b'"'):
                break
            end = quote + 1
        self.place = quote + 1
        text = self.data[start:quote]
        if b'"' in text:
            self.say(start - 1, f"{text.count(34)} quotes inside a string are written &quot;")
        return text.replace(b'\\"', b'"').replace(b'"', b"&quot;")

    def after_line(self, line_end: int) -> int:
        return line_end + (2 if self.data[line_end:line_end + 2] == b"\r\n" else 1)

    def unclosed(self, start: int, line_end: int) -> bytes:
        """A string that is closed at the end of its line, before the brackets that close lists of this line."""
        begun = max(self.data.rfind(b"\n", 0, start), self.data.rfind(b"\r", 0, start))
        inner = sum(pair.value_at > begun for pair in self.open)
        text = self.data[start:line_end].rstrip()
        while inner and text.endswith(b"]"):
            inner, text = inner - 1, text[:-1].rstrip()
        self.say(start - 1, "a string that is not closed ends with its line")
        self.place = start + len(text)
        return text.replace(b'"', b"&quot;")
