"""Why a line of a script is not a command, and what a refused command means: hints for `tools/explain`. Standard library alone."""
from __future__ import annotations

import difflib
import re
from typing import Optional

from explain_graph import Finding
from gml_text import LINE_END

FORMS = {
    "euler": "euler ROT", "show": "show B", "faces": "faces B", "flip": "flip B K", "permute": "permute B K KEYS", "mirror": "mirror B",
    "first": "first B", "next": "next B", "list": "list B N", "lock": "lock B K", "goto": "goto B R", "convert": "convert B rank R, or convert B to ROT",
    "take": "take B ROT", "undo": "undo", "redo": "redo", "gml": "gml", "count": "count B", "rank": "rank B", "unlock": "unlock B K",
    "longest": "longest B", "draw": "draw B", "whole": "whole C", "regroup": "regroup V EDGES", "nextwhole": "nextwhole C",
    "listwhole": "listwhole C N", "convertwhole": "convertwhole C ROT",
}
ARGUMENTS = {"B": ("a block", 2 ** 32), "K": ("a node", 2 ** 32), "N": ("the number of members", 10_001), "R": ("a rank", 2 ** 128),
             "C": ("a component", 2 ** 32), "V": ("a vertex", 2 ** 32), "E": ("an edge", 2 ** 32)}
CODES = {
    1: "this block does not exist: the lines `block B:` of the head have the blocks",
    2: "this node does not exist: the lines `node K ..` after the block's line have its nodes",
    3: "the node is of another kind: `flip` takes an R, `permute` a P, `lock` and `unlock` take either",
    4: "the keys are not a permutation of the keys of the node's items; in a script the block comes first: permute B K KEYS",
    5: "the block, or one of the component, is not planar: the line `nonplanar B ..` of the head has a certificate",
    6: "the list of vertex {0} is not a permutation of its edges, or {0} is not a vertex; a vertex that is not named has the empty list",
    7: "the rotation system is not plane: it has {0} vertices, {1} edges and {2} faces",
    8: "there is no earlier change to take back",
    9: "no change was taken back",
    10: "the list of the block has 2^128 members or more",
    11: "the ranks are from 0, and the list has {0} members",
    12: "node {0} is locked: unlock it first",
    13: "edges {0} and {1} have the same ends, so straight lines cannot draw both",
    14: "this component does not exist: they are numbered from 0, in the order of their least vertices",
    15: "this is not a cut vertex: the lines `cut V` of the head have these",
    16: "the list changes the order of the edges of block {0}: `show {0}` prints it",
    17: "blocks {0} and {1} cross: edges of the one and of the other alternate around the vertex",
}
LOCKED_IN_BLOCK = "node {1} of block {0} is locked: unlock it first"


def line_at(data: bytes, line: int) -> int:
    """The byte at which a line of a script begins: lines end with LF alone."""
    start = 0
    for _ in range(line - 1):
        start = data.index(b"\n", start) + 1
    return start


def script_fault(data: bytes, line: int) -> Finding:
    """Why this line of a script, which the program refuses, is not a command."""
    start = line_at(data, line)
    end = data.find(b"\n", start)
    text = data[start:end if end >= 0 else len(data)]
    finding = _mark(text, start) or _comment(text, start) or _by_word(text, start)
    return finding or Finding(start, "this line is not a command", f"{_form(text)}")


def _mark(text: bytes, start: int) -> Optional[Finding]:
    if text.startswith(b"\xef\xbb\xbf"):
        return Finding(start, "a byte order mark (EF BB BF)", "save the script as UTF-8 without one")
    if text.startswith((b"\xff\xfe", b"\xfe\xff")) or b"\0" in text:
        return Finding(start, "the script is in UTF-16 or not text", "save it as UTF-8")
    if LINE_END.search(text.removesuffix(b"\r")):
        return Finding(start, "the lines of the script end with CR alone", "let them end with LF or CR LF")
    odd = re.search(rb"[^\t\r -~]+", text)
    if odd and not text.lstrip().startswith(b"#"):
        return Finding(start + odd.start(), f"`{odd.group().decode('utf-8', 'replace')}` is not part of a command", "is it a no-break space, a dash or a quote of a word processor?")
    return None


def _comment(text: bytes, start: int) -> Optional[Finding]:
    at = text.find(b"#")
    return Finding(start + at, "a comment after a command", "in a script a comment has a line of its own") if at > 0 else None


def _words(text: bytes) -> list[tuple[int, str]]:
    return [(word.start(), word.group().decode("utf-8", "replace")) for word in re.finditer(rb"[^ \t\r]+", text)]


def _form(text: bytes) -> str:
    words = _words(text)
    return f"the form is: {FORMS[words[0][1]]}" if words and words[0][1] in FORMS else "docs/COMMANDS.md has the commands"


def _by_word(text: bytes, start: int) -> Optional[Finding]:
    words = _words(text)
    name = words[0][1]
    if name not in FORMS:
        return Finding(start + words[0][0], f"`{name[:30]}` is not a command", _word_hint(name))
    if name in ("undo", "redo", "gml"):
        return Finding(start + words[1][0], f"`{name}` takes nothing more", _form(text)) if len(words) > 1 else None
    if name == "euler":
        return _rotation(text, start, words[0][0] + 5)
    if name in ("take", "convert", "convertwhole"):
        return _with_rotation(text, start, words)
    return _numbers(text, start, words, FORMS[name].split()[1:])


def _is_below(digits: str, limit: int) -> bool:
    """Whether the number is below the limit, of as many digits as there are."""
    short = digits.lstrip("0") or "0"
    return len(short) <= 40 and int(short) < limit


def _word_hint(name: str) -> str:
    if name.lower() in FORMS:
        return f"commands are in lower case: {name.lower()}"
    if name == ">":
        return "write the commands without a prompt"
    if name in ("rotation", "|"):
        return "a line of a report: to give a rotation system back, write `take B ` in place of `rotation B | `"
    near = difflib.get_close_matches(name, FORMS, 1)
    return f"is it `{near[0]}`?" if near else "docs/COMMANDS.md has the commands"


def _numbers(text: bytes, start: int, words: list[tuple[int, str]], wanted: list[str]) -> Optional[Finding]:
    """The first argument that is not as the form wants it. KEYS and EDGES stand for one or more."""
    given = words[1:]
    if wanted[-1] in ("KEYS", "EDGES"):
        wanted = wanted[:-1] + [wanted[-1][0]] * max(1, len(given) - len(wanted) + 1)
    for (at, word), kind in zip(given, wanted):
        what, limit = ARGUMENTS[kind]
        if not re.fullmatch("[0-9]+", word):
            commas = "; blanks are between numbers, no commas" if "," in word else ""
            return Finding(start + at, f"`{word[:30]}` is not a number", f"numbers are decimal digits alone{commas}; {_form(text)}")
        if not _is_below(word, limit) or (kind == "N" and not word.strip("0")):
            return Finding(start + at, f"`{word[:50]}` is out of range", f"{what} is from {1 if kind == 'N' else 0} to {limit - 1}")
    if len(given) < len(wanted):
        moves = "; `convert` prints moves without their block, which a command needs" if words[0][1] in ("flip", "permute") else ""
        return Finding(start + len(text.rstrip()), f"`{words[0][1]}` needs more than this", f"{_form(text)}{moves}")
    if len(given) > len(wanted):
        return Finding(start + given[len(wanted)][0], f"`{words[0][1]}` takes nothing more", _form(text))
    return None


def _with_rotation(text: bytes, start: int, words: list[tuple[int, str]]) -> Optional[Finding]:
    block = re.match(rb"[ \t]*[a-z]+[ \t]+([0-9]+)(?![0-9])", text)
    if not block or not _is_below(block.group(1).decode(), 2 ** 32):
        at = words[1][0] if len(words) > 1 else len(text.rstrip())
        what = "a component" if words[0][1] == "convertwhole" else "a block"
        return Finding(start + at, f"{what} is missing here", _form(text))
    if words[0][1] in ("take", "convertwhole"):
        return _rotation(text, start, block.end())
    word = words[2][1] if len(words) > 2 else ""
    if word == "rank":
        return _numbers(text, start, [words[0], words[1], *words[3:]], ["B", "R"])
    if word.startswith("to"):
        return _rotation(text, start, words[2][0] + 2)
    return Finding(start + (words[2][0] if len(words) > 2 else len(text.rstrip())), "`rank` or `to` is missing here", _form(text))


def _rotation(text: bytes, start: int, after: int) -> Optional[Finding]:
    """The first entry of a rotation system that is not as it must be."""
    last, at = -1, after
    for entry in text[after:].rstrip().split(b";"):
        place = start + at + len(entry) - len(entry.lstrip(b" \t"))
        form = re.fullmatch(rb"[ \t]*([0-9]+)[ \t]*:[ \t]*((?:[0-9]+[ \t]+)*[0-9]*)[ \t]*", entry)
        at += len(entry) + 1
        if not entry.strip():
            return Finding(place, "an entry is missing here", "`;` is only between two entries") if b";" in text else None
        if form is None:
            hint = "a line of a report: leave `|` out" if b"|" in entry else "an entry is a vertex, `:` and its edges, with blanks between them: `0: 0 1 2`"
            return Finding(place, f"`{entry.strip().decode('utf-8', 'replace')[:30]}` is not an entry of a rotation system", hint)
        if not all(_is_below(word.decode(), 2 ** 32) for word in [form.group(1), *form.group(2).split()]):
            return Finding(place, "a number of this entry is out of range", "vertices and edges are below 4294967296")
        if int(form.group(1)) <= last:
            return Finding(place, f"vertex {int(form.group(1))} is not above the one before it", "the vertices of the entries increase")
        last = int(form.group(1))
    return None


def code_hint(code: int, numbers: tuple[int, ...]) -> str:
    """What `error CODE ..` means. Code 12 has a second form, with a block before the node."""
    if code == 12 and len(numbers) == 2:
        return LOCKED_IN_BLOCK.format(*numbers)
    return CODES.get(code, "docs/COMMANDS.md has the codes").format(*numbers, "", "", "")
