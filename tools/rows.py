#!/usr/bin/env python3
"""Runs the scripts of rows/ through the built program, and compares what it answers byte for byte.

    python3 tools/rows.py [--program PATH] [FILE ..]

FILE: files of rows/, or docs/WORKFLOWS.md or docs/OPERATING.md (else all of them). PATH: the program (else crates/conductor/out/conductor, which the gate builds).
The last line is `rows: N passed, M failed`, of scripts and documents; the status is 0 where none failed.

A file NAME.script has runs of `conductor batch`, each from a new store:

    # NAME                          begins a script
    - FIELD: VALUE                  a field of the next request
    METHOD TARGET [@MOMENT] [BODY]  a request; Moment-Ms and Content-Length are written where there is a moment or a body, and
                                    the first request states the moment 0 where it states none, since a run else begins
                                    at the clock's reading
    = STATUS [BODY]                 the reply that it must get, with the head that goes with its body
    = STATUS task KEY=VALUE, ..     a task as the body; what isn't said is as in TASK below
    + KEY=VALUE, ..                 a task of the flow that the next reply has
    = STATUS flow KEY=VALUE, ..     a flow as the body; what isn't said is as in FLOW below
    = CODE                          a refusal; behind BAD_METHOD stand the methods of its field Allow, and behind
                                    BAD_DEFINITION its message
    = head CODE ..                  the same as the reply to HEAD, which has no body
    = close STATUS ..               the same with `Connection: close`, with any of the forms above (`head` before `close`)
    ! METHOD TARGET ..              a request that must be refused NOT_BUILT
    words WORD ..                   the words of the command line, where they aren't `batch`
    end STATUS [OFFSET]             how the run ends, where it isn't `Done`

In a script whose bytes matter, the bytes themselves stand between lines `--- requests`, `--- replies` and `---`. There the end
of a line stands for CR LF, and the last one for nothing. Where `, escaped` stands behind the word, it stands for nothing, and
`\\r`, `\\n`, `\\\\` and `\\xNN` are bytes.

A file NAME.check has documents for `conductor check`: a line with the document, and one with what must be written. The
status of `ok` is 0, and else 13.

In all files an empty line and one that begins with `//` stand for nothing, as does in NAME.check one that begins with `#`.
`let <NAME> TEXT` gives a text a name from there on, and `let <NAME>` with indented lines behind it gives these a name;
rows/common.names has names for all files. `<N TIMES TEXT>` is the text so many times, with `#` in it counting from 0.
"""

import json
import pathlib
import re
import subprocess
import sys
from dataclasses import dataclass, field

ROOT = pathlib.Path(__file__).resolve().parent.parent
ROWS = ROOT / "rows"
GUIDES = [ROOT / "docs" / "WORKFLOWS.md", ROOT / "docs" / "OPERATING.md"]
PROGRAM = ROOT / "crates" / "conductor" / "out" / "conductor"
SECONDS = 120

# What a task says that isn't said otherwise: the first of the first flow, scheduled at the moment 0. A value that is a text
# is written without its quotes. What is None isn't written unless it is said; the type is that of a SIMPLE task.
TASK = {
    "callbackAfterSeconds": "0",
    "endTime": "0",
    "inputData": "{}",
    "iteration": "0",
    "outputData": "{}",
    "pollCount": "0",
    "reasonForIncompletion": "",
    "referenceTaskName": "a",
    "retriedTaskId": None,
    "retryCount": "0",
    "scheduledTime": "0",
    "startTime": "0",
    "status": "SCHEDULED",
    "subWorkflowId": None,
    "taskDefName": "pick",
    "taskId": "00000001-0200-8000-8000-000000000001",
    "taskType": None,
    "updateTime": "0",
    "workerId": "",
    "workflowInstanceId": "00000001-0100-8000-8000-000000000001",
}

# What a flow says that isn't said otherwise: the first, which was started at the moment 0 and runs.
FLOW = {
    "correlationId": "",
    "createTime": "0",
    "endTime": "0",
    "input": "{}",
    "output": "{}",
    "parentWorkflowId": None,
    "parentWorkflowTaskId": None,
    "reasonForIncompletion": "",
    "startTime": "0",
    "status": "RUNNING",
    "tasks": "",
    "variables": "{}",
    "workflowId": "00000001-0100-8000-8000-000000000001",
    "workflowName": "order",
    "workflowVersion": "1",
}

TEXTS = {
    "correlationId",
    "parentWorkflowId",
    "parentWorkflowTaskId",
    "reasonForIncompletion",
    "referenceTaskName",
    "retriedTaskId",
    "status",
    "subWorkflowId",
    "taskDefName",
    "taskId",
    "taskType",
    "workerId",
    "workflowId",
    "workflowInstanceId",
    "workflowName",
}

PHRASES = {
    "200": "OK",
    "204": "No Content",
    "400": "Bad Request",
    "404": "Not Found",
    "405": "Method Not Allowed",
    "409": "Conflict",
    "413": "Content Too Large",
    "415": "Unsupported Media Type",
    "431": "Request Header Fields Too Large",
    "501": "Not Implemented",
}

# The refusals: code, status and message.
REFUSALS = {
    code: (status, message)
    for code, status, message in (
        line.split(" ", 2)
        for line in """\
NOT_FOUND 404 no such thing
EXISTS 409 already registered
NOT_RUNNING 409 the workflow is not running
NOT_PAUSED 409 the workflow is not paused
NOT_TERMINAL 409 the workflow has not ended
WAS_COMPLETED 409 the workflow was completed
NOT_RESTARTABLE 409 the workflow is not restartable
IS_CHILD 409 the workflow is a child
NOT_RERUNNABLE 409 no rerun from this task
ALREADY_SCHEDULED 409 the task was scheduled
NOT_UPDATABLE 409 the task takes no update
STORE_FULL 409 the store is full
DOCUMENT_LIMIT 409 the document is too large
CONTENT_ENCODING 415 the body is encoded
BAD_MOMENT 400 Moment-Ms is not a moment
NO_ROUTE 404 no such path
BAD_METHOD 405 no such method here
BAD_PATH 400 bad path parameter
BAD_QUERY 400 bad query
SYNTAX 400 not a JSON text
FRACTION 400 a number has a fraction or an exponent
RANGE 400 a number is out of range
TOO_DEEP 400 nested too deep
BAD_BODY 400 the body has another form
BAD_DEFINITION 400 -
NOT_BUILT 501 not built yet
BAD_FRAME 400 not an HTTP message
CODING 501 unknown transfer coding
HEAD_TOO_LARGE 431 the head is too large
BODY_TOO_LARGE 413 the body is too large""".splitlines()
    )
}

# How a run may end, and the program's exit status then.
ENDS = {
    "Done": 0,
    "NoMemory": 1,
    "Usage": 2,
    "ReadFault": 3,
    "WriteFault": 4,
    "BadFrame": 7,
    "Cut": 8,
    "LongInput": 9,
    "TooLarge": 10,
    "Invalid": 13,
}


class Malformed(Exception):
    """A line that isn't of the notation."""


@dataclass
class Exchange:
    """A request as its line says it, and the reply that it must get, with the line that says that."""

    line: int
    sent: str
    reply: bytes


@dataclass
class Script:
    """One run of the program: what it reads, and what it must write."""

    path: pathlib.Path
    line: int
    name: str
    words: list = field(default_factory=lambda: ["batch"])
    sent: bytes = b""
    waiting: list = field(default_factory=list)
    exchanges: list = field(default_factory=list)
    end: str = "Done"
    offset: str = ""

    def replies(self):
        return b"".join(each.reply for each in self.exchanges)


def repeated(text):
    """The text with each `<N TIMES TEXT>` written out."""

    def times(found):
        return "".join(found.group(2).replace("#", str(i)) for i in range(int(found.group(1))))

    return re.sub(r"<(\d+) TIMES ([^<>]*)>", times, text)


def source(path):
    """The lines of a file. Of a text with blocks of code, those of its blocks `rows`, each line at its own number; a block
    `json` before them gives the name <DEFINITION> to its document, written in one line."""
    lines = path.read_text(encoding="utf-8").split("\n")
    if path.suffix != ".md":
        return lines
    taken, kind, first = [""] * len(lines), None, 0
    for place, line in enumerate(lines):
        if kind is None and line.startswith("```"):
            kind, first = line[3:], place + 1
        elif line == "```":
            if kind == "json":
                document = json.loads("\n".join(lines[first:place]))
                taken[first] = "let <DEFINITION> " + json.dumps(document, separators=(",", ":"))
            elif kind == "rows":
                taken[first:place] = lines[first:place]
            kind = None
    return taken


class Names:
    """Names in angle brackets, and the texts that they stand for."""

    def __init__(self, known=()):
        self.known = dict(known)

    def replaced(self, text):
        for name, meaning in self.known.items():
            text = text.replace(name, meaning)
        return repeated(text)

    def lines(self, path):
        """The lines of a file with their numbers, names replaced and definitions of names taken in."""
        lines = source(path)
        place = 0
        while place < len(lines):
            line, number = lines[place], place + 1
            place += 1
            found = re.fullmatch(r"let (<[^<>]+>)(?: (.*))?", line)
            if not found:
                for part in self.replaced(line).split("\n"):
                    yield number, part
                continue
            text = found.group(2)
            if text is None:
                first = place
                while place < len(lines) and lines[place].startswith("    "):
                    place += 1
                text = "\n".join(each[4:] for each in lines[first:place])
            self.known[found.group(1)] = self.replaced(text)


def common_names():
    names = Names()
    for number, line in names.lines(ROWS / "common.names"):
        if line and not line.startswith("//"):
            raise Malformed(f"common.names:{number}: no name: {line}")
    return names.known


def cut(text):
    """The parts of a text around its first blank."""
    first, _, rest = text.partition(" ")
    return first, rest


def document(form, words, tasks=""):
    """A task or a flow as replies print it, with the values that the words say."""
    said = {"tasks": f"[{tasks}]"}
    for word in words.split(", ") if words else []:
        key, _, value = word.partition("=")
        if key not in form or key == "tasks":
            raise Malformed(f"no key {key}")
        said[key] = value
    values = {**form, **said}
    if "taskType" in form and values["taskType"] is None:
        values["taskType"] = values["taskDefName"]
    written = (key for key in form if values[key] is not None)
    quoted = ((key, f'"{values[key]}"' if key in TEXTS else values[key]) for key in written)
    return "{" + ",".join(f'"{key}":{value}' for key, value in quoted) + "}"


def request(fields, line):
    """The bytes of the request that a line says."""
    method, rest = cut(line)
    target, rest = cut(rest)
    if rest.startswith("@"):
        moment, rest = cut(rest[1:])
        fields = fields + [f"Moment-Ms: {moment}"]
    body = rest.encode()
    if body:
        fields = fields + [f"Content-Length: {len(body)}"]
    head = [f"{method} {target} HTTP/1.1", *fields, "", ""]
    return "\r\n".join(head).encode() + body


def reply(status, fields, text):
    """The bytes of a reply."""
    if status not in PHRASES:
        raise Malformed(f"no status {status}")
    body = text.encode()
    head = [f"HTTP/1.1 {status} {PHRASES[status]}", *fields]
    if text[:1] in ("{", "["):
        head.append("Content-Type: application/json")
    elif text:
        head.append("Content-Type: text/plain")
    if status != "204":
        head.append(f"Content-Length: {len(body)}")
    return "\r\n".join([*head, "", ""]).encode() + body


def wanted(line, tasks):
    """The bytes of the reply that a line says; a flow has these tasks."""
    first, rest = cut(line)
    if first == "head":
        return wanted(rest, "").partition(b"\r\n\r\n")[0] + b"\r\n\r\n"
    closing = []
    if first == "close":
        closing = ["Connection: close"]
        first, rest = cut(rest)
    if first in REFUSALS:
        status, message = REFUSALS[first]
        allow = [f"Allow: {rest}"] if first == "BAD_METHOD" else []
        message = rest if first == "BAD_DEFINITION" else message
        return reply(status, allow + closing, f'{{"code":"{first}","message":"{message}","status":{status}}}')
    kind, words = cut(rest)
    if kind == "task":
        rest = document(TASK, words)
    elif kind == "flow":
        rest = document(FLOW, words, tasks)
    return reply(first, closing, rest)


def unescaped(text):
    def byte(found):
        kind = found.group(1)
        return {"r": "\r", "n": "\n", "\\": "\\"}.get(kind) or chr(int(kind[1:], 16))

    return re.sub(r"\\(r|n|\\|x[0-9a-f]{2})", byte, text).encode("latin-1")


class Reader:
    """Reads the scripts of a file."""

    def __init__(self, path, names):
        self.path, self.names = path, names
        self.scripts, self.fields, self.tasks = [], [], []
        self.block, self.lines = None, []

    def scripts_read(self):
        for number, line in self.names.lines(self.path):
            try:
                self.take(number, line)
            except Malformed as fault:
                raise Malformed(f"{self.path.name}:{number}: {fault}") from None
        if self.block:
            raise Malformed(f"{self.path.name}:{self.block[1]}: a block without an end")
        for script in self.scripts:
            if script.waiting:
                line, sent = script.waiting[0]
                raise Malformed(f"{self.path.name}:{line}: no reply is wanted of {sent}")
        return self.scripts

    def take(self, number, line):
        if line == "---" or line.startswith("--- "):
            self.close_block()
            self.open_block(number, line[4:])
        elif self.block:
            self.lines.append(line)
        elif line.startswith("# "):
            self.scripts.append(Script(self.path, number, line[2:]))
        elif line.strip() and not line.startswith("//"):
            self.take_line(number, line.lstrip())

    def script(self):
        if not self.scripts:
            raise Malformed("a line before the first script")
        return self.scripts[-1]

    def open_block(self, number, kind):
        if kind not in ("", "requests", "requests, escaped", "replies", "replies, escaped"):
            raise Malformed(f"no block {kind}")
        self.block = (kind, number) if kind else None

    def close_block(self):
        """Takes in the bytes of a block: requests, or the replies, which are compared as one."""
        if self.block:
            kind, number = self.block
            escaped = kind.endswith(", escaped")
            data = unescaped("".join(self.lines)) if escaped else "\r\n".join(self.lines).encode()
            if kind.startswith("requests"):
                self.script().sent += data
            else:
                self.script().exchanges += raw_replies(number, data)
        self.block, self.lines = None, []

    def take_line(self, number, line):
        script = self.script()
        kind, rest = cut(line)
        if kind == "words":
            script.words = rest.split()
        elif kind == "end":
            script.end, script.offset = cut(rest)
            if script.end not in ENDS:
                raise Malformed(f"no end {rest}")
        elif kind == "-":
            self.fields.append(rest)
        elif kind == "+":
            self.tasks.append(document(TASK, rest))
        elif kind == "=":
            sent = script.waiting.pop(0)[1] if script.waiting else "nothing more"
            script.exchanges.append(Exchange(number, sent, wanted(rest, ",".join(self.tasks))))
            self.tasks = []
        elif kind == "!":
            self.ask(script, number, rest)
            script.exchanges.append(Exchange(number, script.waiting.pop(0)[1], wanted("NOT_BUILT", "")))
        else:
            self.ask(script, number, line)

    def ask(self, script, number, line):
        sent = request(self.fields, line)
        if not script.sent and b"\r\nmoment-ms:" not in sent.lower():
            sent = request([*self.fields, "Moment-Ms: 0"], line)
        script.sent += sent
        script.waiting.append((number, sent.decode()))
        self.fields = []


def raw_replies(number, text):
    """Replies that are written out, cut at their status lines."""
    for part in re.split(rb"(?<!^)(?=HTTP/1\.1 \d\d\d )", text):
        if part:
            yield Exchange(number, "the bytes of the script", part)


def run(program, words, sent):
    """What the program writes, its exit status, and what it says on standard error."""
    ended = subprocess.run([str(program), *words], input=sent, capture_output=True, timeout=SECONDS)
    return ended.stdout, ended.returncode, ended.stderr.decode(errors="replace")


def told(end, offset):
    """What the program says on standard error where it ends so."""
    if end == "Done":
        return ""
    place = f" at byte {offset}" if offset else ""
    return f"conductor: {end}{place} (status {ENDS[end]})\n"


def reply_at(output, start, sent):
    """The reply that stands in the output from there on, as far as its head says."""
    head, mark, _ = output[start:].partition(b"\r\n\r\n")
    length = re.search(rb"(?im)^content-length: (\d+)\r?$", head)
    size = 0 if sent.startswith("HEAD ") or not length else int(length.group(1))
    return output[start : start + len(head) + len(mark) + size]


def shown_path(path):
    path = path.resolve()
    return path.relative_to(ROOT) if path.is_relative_to(ROOT) else path


def shown(data):
    return "      " + data.decode(errors="replace").replace("\r\n", "\n").rstrip("\n").replace("\n", "\n      ")


def difference(script, output):
    """Says where the output isn't the wanted one, or nothing."""
    start = 0
    for each in script.exchanges:
        end = start + len(each.reply)
        if output[start:end] != each.reply:
            got = reply_at(output, start, each.sent)
            longest = min(len(each.reply), len(output) - start)
            place = next((i for i in range(longest) if each.reply[i] != output[start + i]), longest)
            return (
                f"{shown_path(script.path)}:{each.line}: {script.name}\n"
                f"    sent\n{shown(each.sent.encode())}\n    wanted\n{shown(each.reply)}\n    got\n{shown(got)}\n"
                f"    byte {place} of the reply differs, byte {start + place} of the output"
            )
        start = end
    if len(output) > start:
        return f"{shown_path(script.path)}:{script.line}: {script.name}\n    more is written than is wanted\n{shown(output[start:])}"
    return None


def judged(program, script):
    """What is wrong with a run of the script, or nothing."""
    output, status, said = run(program, script.words, script.sent)
    wrong = difference(script, output)
    if wrong:
        return wrong
    wanted_end = told(script.end, script.offset)
    ends_so = said.startswith(wanted_end) if script.end == "Usage" else said == wanted_end
    if status == ENDS[script.end] and ends_so:
        return None
    return (
        f"{shown_path(script.path)}:{script.line}: {script.name}\n"
        f"    must end with status {ENDS[script.end]}: {wanted_end.rstrip() or 'nothing said'}\n"
        f"    ended with status {status}: {said.rstrip() or 'nothing said'}"
    )


@dataclass
class Case:
    """A document for `check`, and the line that it must write."""

    path: pathlib.Path
    line: int
    document: str
    answer: str


def cases(path, names):
    kept = None
    for number, line in names.lines(path):
        if kept is None and (not line or line.startswith("#") or line.startswith("//")):
            continue
        if kept is None:
            kept = (number, line)
        else:
            yield Case(path, *kept, line)
            kept = None
    if kept is not None:
        raise Malformed(f"{path.name}:{kept[0]}: a document without an answer")


def judged_case(program, case):
    output, status, _ = run(program, ["check"], case.document.encode())
    wanted_status = 0 if case.answer == "ok" else ENDS["Invalid"]
    if output == f"{case.answer}\n".encode() and status == wanted_status:
        return None
    return (
        f"{shown_path(case.path)}:{case.line}: {case.document[:300]}\n"
        f"    wanted {case.answer!r} and status {wanted_status}\n"
        f"    got {output.decode(errors='replace').rstrip(chr(10))!r} and status {status}"
    )


def asked():
    """The program and the files that the words name."""
    words, program = sys.argv[1:], PROGRAM
    if words[:1] == ["--program"] and len(words) > 1:
        program, words = pathlib.Path(words[1]), words[2:]
    if any(word.startswith("-") for word in words):
        sys.exit(__doc__)
    files = [pathlib.Path(word) for word in words] or [*sorted([*ROWS.glob("*.script"), *ROWS.glob("*.check")]), *GUIDES]
    return program, files


def main():
    program, files = asked()
    if not program.is_file():
        sys.exit(f"no program {program}: rt ci builds it")
    replies = documents = passed = failed = 0
    known = common_names()
    for path in files:
        if path.suffix == ".check":
            rows = list(cases(path, Names(known)))
            documents += len(rows)
            faults = (judged_case(program, each) for each in rows)
        else:
            rows = Reader(path, Names(known)).scripts_read()
            replies += sum(len(each.exchanges) for each in rows)
            faults = (judged(program, each) for each in rows)
        for fault in faults:
            if fault:
                print(fault)
                failed += 1
            else:
                passed += 1
    print(f"{replies} replies and {documents} documents compared")
    print(f"rows: {passed} passed, {failed} failed")
    sys.exit(1 if failed or not passed else 0)


if __name__ == "__main__":
    try:
        main()
    except Malformed as fault:
        sys.exit(str(fault))
