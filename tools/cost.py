#!/usr/bin/env python3
"""Measures what a call of `conductor batch` takes, over a pipe, and prints microseconds a call.

    python3 tools/cost.py [--program PATH]

PATH: the program (else crates/conductor/out/conductor, which the gate builds). Each figure is the median of the calls that it
names, each from its request to the last byte of its reply, the pipe's own time among it:

    long flow      an update in a flow of 500 tasks of which 250 are done, with small outputs and with outputs of 1 KB
    loop           the update that ends the 10th turn, and the 300th, of a DO_WHILE over one task
"""

import json
import pathlib
import statistics
import subprocess
import sys
import time

ROOT = pathlib.Path(__file__).resolve().parent.parent
PROGRAM = ROOT / "crates" / "conductor" / "out" / "conductor"


class Run:
    """A run of `conductor batch` that answers one request after another."""

    def __init__(self, program):
        self.process = subprocess.Popen([program, "batch"], stdin=subprocess.PIPE, stdout=subprocess.PIPE)
        self.moment = 0

    def ask(self, line, body=None):
        """The reply's body and the seconds that it took."""
        self.moment += 1
        text = "" if body is None else json.dumps(body, separators=(",", ":"))
        head = f"{line} HTTP/1.1\r\nMoment-Ms: {self.moment}\r\n"
        if body is not None:
            head += f"Content-Length: {len(text)}\r\n"
        began = time.perf_counter()
        self.process.stdin.write(f"{head}\r\n{text}".encode())
        self.process.stdin.flush()
        reply = self.read()
        return reply, time.perf_counter() - began

    def read(self):
        length, status = 0, self.process.stdout.readline()
        if b" 20" not in status:
            sys.exit(f"refused: {status!r} {self.process.stdout.read1()!r}")
        while (field := self.process.stdout.readline()) != b"\r\n":
            if field.lower().startswith(b"content-length:"):
                length = int(field.split(b":")[1])
        return self.process.stdout.read(length)

    def complete(self, task, output=None):
        """Completes the task of that number, and tells the seconds that it took."""
        output = {"n": task} if output is None else output
        body = {"taskId": f"00000001-0200-8000-8000-{task:012x}", "status": "COMPLETED", "outputData": output}
        return self.ask("POST /api/tasks", body)[1]

    def close(self):
        self.process.stdin.close()
        self.process.wait()


def long_flow(program, output=None):
    times = []
    for _ in range(5):
        run = Run(program)
        run.ask("POST /api/metadata/taskdefs", [{"name": "x"}])
        tasks = [{"name": "x", "taskReferenceName": f"a{n}"} for n in range(500)]
        run.ask("POST /api/metadata/workflow", {"name": "long", "tasks": tasks})
        run.ask("POST /api/workflow/long", {})
        for task in range(1, 251):
            run.complete(task, output)
        times += [run.complete(task, output) for task in range(251, 256)]
        run.close()
    return statistics.median(times)


def loop(program):
    tenth, last = [], []
    for _ in range(5):
        run = Run(program)
        run.ask("POST /api/metadata/taskdefs", [{"name": "x"}])
        node = {
            "name": "l",
            "taskReferenceName": "l",
            "type": "DO_WHILE",
            "loopCondition": "$.l['iteration'] < 1000",
            "loopOver": [{"name": "x", "taskReferenceName": "a"}],
        }
        run.ask("POST /api/metadata/workflow", {"name": "loop", "tasks": [node]})
        run.ask("POST /api/workflow/loop", {})
        turns = [run.complete(turn + 1) for turn in range(1, 302)]
        tenth += turns[8:11]
        last += turns[298:301]
        run.close()
    return statistics.median(tenth), statistics.median(last)


def main():
    words, program = sys.argv[1:], PROGRAM
    if words[:1] == ["--program"] and len(words) == 2:
        program, words = pathlib.Path(words[1]), []
    if words:
        sys.exit(__doc__)
    large = {f"field{n}": {"n": n, "text": "some words of a worker"} for n in range(20)}
    small, large = long_flow(program), long_flow(program, large)
    print(f"long flow: an update with 250 of 500 tasks done {small * 1e6:.0f} us, with outputs of 1 KB {large * 1e6:.0f} us")
    tenth, last = loop(program)
    print(f"loop: turn 10 {tenth * 1e6:.0f} us, turn 300 {last * 1e6:.0f} us, {last / tenth:.1f} times")


if __name__ == "__main__":
    main()
