#!/usr/bin/env python3
"""Compares docs/API.md with the program: its routes with the table of routes, and its examples with the run of
`conductor batch` that the gate makes.

    python3 tools/api_examples.py            compares
    python3 tools/api_examples.py --write    writes the run from the page

The routes are those of crates/wf_routes/src/table.rt. The page has a section `### METHOD PATH` for each that is built, and
names each other one, as `METHOD PATH`, in its last section. What a parameter is called doesn't count.

The page's fenced blocks of the kinds `request` and `reply` alternate. The requests, one after another, are the bytes of
crates/conductor/stdin, and the replies those of crates/conductor/stdout. A block's lines up to the first empty one are a
head: each ends in CR LF, and an empty line ends the head, whether or not the block has it. What stands behind it is the
body, without the line end of its last line.

The status is 0 where nothing differs, and 1 where something does, or the blocks aren't well-formed.
"""

import pathlib
import re
import sys

ROOT = pathlib.Path(__file__).resolve().parent.parent
PAGE = ROOT / "docs" / "API.md"
REQUESTS = ROOT / "crates" / "conductor" / "stdin"
REPLIES = ROOT / "crates" / "conductor" / "stdout"
TABLE = ROOT / "crates" / "wf_routes" / "src" / "table.rt"


def blocks(page):
    """The kind and the text of each fenced block of the page that is a request or a reply, with its line."""
    kind, start, lines = None, 0, []
    for number, line in enumerate(page.split("\n"), 1):
        if kind is None and line.startswith("```"):
            kind, start, lines = line[3:].strip(), number, []
        elif line == "```":
            if kind in ("request", "reply"):
                yield kind, "\n".join(lines), start
            kind = None
        elif kind is not None:
            lines.append(line)


def message(text):
    """The head's lines and the body of a block."""
    head, _, body = text.partition("\n\n")
    return head.split("\n"), body


def as_bytes(text):
    """The bytes that a block stands for."""
    head, body = message(text)
    return "".join(line + "\r\n" for line in head + [""]).encode() + body.encode()


def stated_length(head):
    """The length that the head states, or none."""
    for line in head[1:]:
        name, _, value = line.partition(":")
        if name.lower() == "content-length":
            return int(value)
    return None


def faults(pairs):
    """What is wrong with the blocks: a kind out of turn, or a length that isn't its body's."""
    method = None
    for place, (kind, text, line) in enumerate(pairs):
        if kind != ("request", "reply")[place % 2]:
            yield f"line {line}: a {kind} out of turn"
            return
        head, body = message(text)
        if kind == "request":
            method = head[0].split(" ")[0]
        length = stated_length(head)
        if not (kind == "reply" and method == "HEAD") and (length or 0) != len(body.encode()):
            yield f"line {line}: the body has {len(body.encode())} bytes"
    if len(pairs) % 2:
        yield "the last request has no reply"


def first_difference(page, kept):
    """Where two runs of bytes differ first, with what stands there in each."""
    shorter = min(len(page), len(kept))
    place = next((i for i in range(shorter) if page[i] != kept[i]), shorter)
    return f"at byte {place}: the page has {page[place:place + 40]!r}, the file {kept[place:place + 40]!r}"


def route(method, path):
    """A route whose parameters have no names."""
    return method.upper(), re.sub(r"\{[^}]*\}", "{}", path)


def table_routes(source):
    """The routes of the table: a pattern, and behind it the methods of its calls."""
    rows = re.split(r"Row::new\(", source[source.index("match self {\n            Path::AdminShutdown"):])[1:]
    for row in rows:
        pattern = re.search(r'"(/[^"]*)"', row).group(1)
        for method in re.findall(r"Call\(Method::(\w+)", row):
            yield route(method, pattern)


def page_routes(page):
    """The routes that the page has a section for, or names among those that aren't built."""
    for method, path in re.findall(r"^### ([A-Z]+) (/\S+)$", page, re.M):
        yield route(method, path)
    for method, path in re.findall(r"`([A-Z]+) (/[^` ?]+)`", page[page.index("## Not built yet"):]):
        yield route(method, path)


def route_faults(page):
    """Routes that the page or the table has alone."""
    told, kept = set(page_routes(page)), set(table_routes(TABLE.read_text(encoding="utf-8")))
    for method, path in sorted(kept - told):
        yield f"the page has no {method} {path}"
    for method, path in sorted(told - kept):
        yield f"the table has no {method} {path}"


def main():
    words = sys.argv[1:]
    if words not in ([], ["--write"]):
        sys.exit(__doc__)
    page = PAGE.read_text(encoding="utf-8")
    pairs = list(blocks(page))
    wrong = list(faults(pairs)) + list(route_faults(page))
    if wrong:
        sys.exit("\n".join(wrong))
    differs = False
    for kind, path in (("request", REQUESTS), ("reply", REPLIES)):
        run = b"".join(as_bytes(text) for found, text, _ in pairs if found == kind)
        if words:
            path.write_bytes(run)
        elif not path.exists() or path.read_bytes() != run:
            kept = path.read_bytes() if path.exists() else b""
            print(f"{path.relative_to(ROOT)} differs {first_difference(run, kept)}")
            differs = True
    sys.exit(1 if differs else 0)


if __name__ == "__main__":
    main()
