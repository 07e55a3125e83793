#!/usr/bin/env python3
"""Sends random requests to `conductor batch`, over all routes, types of tasks and statuses, and looks at how each run ends.

    python3 tools/stream.py [--program PATH] [RUNS [SEED]]

PATH: the program (else crates/conductor/out/conductor). RUNS: how many runs (else 20), each of some 400 requests; run k draws from
SEED + k (else 1 + k). A run passes where the program ends with status 0 and each request has one well-formed reply with a
status that is documented.
"""

import json
import pathlib
import random
import re
import subprocess
import sys

ROOT = pathlib.Path(__file__).resolve().parent.parent
PROGRAM = ROOT / "crates" / "conductor" / "out" / "conductor"
REQUESTS = 400
STATUSES = {200, 204, 400, 404, 405, 409, 413, 415, 501}
RESULTS = ["COMPLETED", "FAILED", "FAILED_WITH_TERMINAL_ERROR", "IN_PROGRESS", "COMPLETED", "COMPLETED"]
NAMES = ["x", "y", "z"]
FLOWS = ["f", "g", "h"]


class Maker:
    """Makes random documents and requests."""

    def __init__(self, seed):
        self.random = random.Random(seed)
        self.count = 0

    def one_of(self, choices):
        return self.random.choice(choices)

    def value(self, depth=0):
        kinds = [None, True, self.random.randrange(-9, 99), "two", "1s", "${workflow.input.n}", "${r1.output.k}"]
        if depth < 2:
            kinds += [[self.value(depth + 1)], {"k": self.value(depth + 1)}]
        return self.one_of(kinds)

    def reference(self):
        self.count += 1
        return f"r{self.count}"

    def nodes(self, depth):
        return [node for _ in range(self.random.randrange(1, 4)) for node in self.node(depth)]

    def node(self, depth):
        kinds = ["SIMPLE", "SIMPLE", "SET_VARIABLE", "WAIT", "HUMAN", "SUB_WORKFLOW"]
        if depth == 0:
            kinds += ["SWITCH", "FORK_JOIN", "DO_WHILE", "TERMINATE"]
        kind, reference = self.one_of(kinds), self.reference()
        node = {"name": self.one_of(NAMES), "taskReferenceName": reference, "type": kind, "inputParameters": {"n": self.value()}}
        if self.random.random() < 0.2:
            node["optional"] = True
        if kind == "WAIT":
            node["inputParameters"] = {"duration": self.one_of(["1s", "2 minutes", "", None, "5x", 7])}
        elif kind == "SUB_WORKFLOW":
            node["subWorkflowParam"] = {"name": self.one_of(FLOWS + ["gone"])}
        elif kind == "TERMINATE":
            status = self.one_of(["COMPLETED", "FAILED", "TERMINATED", "OTHER"])
            node["inputParameters"] = {"terminationStatus": status, "workflowOutput": self.value(), "terminationReason": self.value()}
        elif kind == "SWITCH":
            node |= {"evaluatorType": "value-param", "expression": "n", "decisionCases": {"1": self.nodes(1), "two": self.nodes(1)}}
            if self.random.random() < 0.5:
                node["defaultCase"] = self.nodes(1)
        elif kind == "DO_WHILE":
            node |= {"loopCondition": f"$.{reference}['iteration'] < {self.one_of(['2', '$.n'])}", "loopOver": self.nodes(1)}
        elif kind == "FORK_JOIN":
            node["forkTasks"] = [self.nodes(1), self.nodes(1)]
            return [node, {"name": "j", "taskReferenceName": self.reference(), "type": "JOIN"}]
        return [node]

    def definition(self):
        self.count = 0
        definition = {"name": self.one_of(FLOWS), "version": self.random.randrange(1, 3), "tasks": self.nodes(0)}
        if self.random.random() < 0.3:
            definition |= {"timeoutSeconds": self.random.randrange(0, 9), "timeoutPolicy": self.one_of(["TIME_OUT_WF", "ALERT_ONLY"])}
        if self.random.random() < 0.3:
            definition["outputParameters"] = {"o": self.value()}
        return definition

    def task_definition(self):
        return {
            "name": self.one_of(NAMES),
            "retryCount": self.random.randrange(0, 3),
            "retryDelaySeconds": self.random.randrange(0, 3),
            "retryLogic": self.one_of(["FIXED", "LINEAR_BACKOFF", "EXPONENTIAL_BACKOFF"]),
            "timeoutPolicy": self.one_of(["RETRY", "TIME_OUT_WF", "ALERT_ONLY"]),
            "timeoutSeconds": 5,
            "responseTimeoutSeconds": self.random.randrange(0, 5),
            "pollTimeoutSeconds": self.random.randrange(0, 5),
        }

    def task(self):
        return f"00000001-0200-8000-8000-{self.random.randrange(1, 60):012x}"

    def flow(self):
        return f"00000001-0100-8000-8000-{self.random.randrange(1, 20):012x}"

    def operation(self):
        """A request of an operator."""
        flow = f"/api/workflow/{self.flow()}"
        return self.one_of(
            [
                (f"PUT {flow}/pause", None),
                (f"PUT {flow}/resume", None),
                (f"PUT {flow}/resume", None),
                (f"DELETE {flow}?reason=stop", None),
                (f"POST {flow}/restart", None),
                (f"POST {flow}/retry", None),
                (f"POST {flow}/rerun", {"reRunFromTaskId": self.task()}),
                (f"POST {flow}/rerun", {"reRunFromTaskId": self.task(), "workflowInput": {"n": self.value()}}),
                (f"PUT {flow}/skiptask/r{self.random.randrange(1, 5)}", {"taskOutput": {"k": self.value()}}),
                (f"DELETE {flow}/remove", None),
            ]
        )

    def request(self):
        result = {"taskId": self.task(), "status": self.one_of(RESULTS), "outputData": {"k": self.value()}}
        if self.random.random() < 0.2:
            result["callbackAfterSeconds"] = self.random.randrange(0, 4)
        return self.one_of(
            [
                ("PUT /api/metadata/workflow", [self.definition()]),
                ("POST /api/metadata/taskdefs", [self.task_definition()]),
                (f"POST /api/workflow/{self.one_of(FLOWS)}", {"n": self.value()}),
                (f"POST /api/workflow/{self.one_of(FLOWS)}", {"n": 1}),
                (f"GET /api/tasks/poll/{self.one_of(NAMES)}?workerid=w", None),
                (f"GET /api/tasks/poll/{self.one_of(NAMES)}", None),
                ("POST /api/tasks", result),
                ("POST /api/tasks", result),
                ("POST /api/tasks", result),
                ("POST /api/admin/sweep", None),
                ("POST /api/admin/sweep", None),
                (f"PUT /api/workflow/decide/{self.flow()}", None),
                (f"GET /api/workflow/{self.flow()}", None),
                (f"GET /api/tasks/{self.task()}", None),
                (f"GET /api/workflow/running/{self.one_of(FLOWS)}", None),
                (f"DELETE /api/metadata/workflow/{self.one_of(FLOWS)}/1", None),
                self.operation(),
                self.operation(),
                self.operation(),
                ("PATCH /api/tasks", None),
            ]
        )

    def stream(self):
        """The bytes of a run."""
        moment, parts = 0, []
        for _ in range(REQUESTS):
            line, body = self.request()
            moment += self.one_of([0, 1, 500, 1500])
            text = b"" if body is None else json.dumps(body).encode()
            head = f"{line} HTTP/1.1\r\nMoment-Ms: {moment}\r\n"
            if body is not None:
                head += f"Content-Length: {len(text)}\r\n"
            parts.append(head.encode() + b"\r\n" + text)
        return b"".join(parts)


def replies(output):
    """The statuses of the replies, or None where they aren't well-formed."""
    statuses, place = [], 0
    while place < len(output):
        end = output.find(b"\r\n\r\n", place)
        found = re.match(rb"HTTP/1\.1 (\d{3}) ", output[place:end])
        if end < 0 or not found:
            return None
        length = re.search(rb"Content-Length: (\d+)", output[place:end])
        place = end + 4 + (int(length.group(1)) if length else 0)
        statuses.append(int(found.group(1)))
    return statuses if place == len(output) else None


def main():
    words, program = sys.argv[1:], PROGRAM
    if words[:1] == ["--program"] and len(words) > 1:
        program, words = pathlib.Path(words[1]), words[2:]
    if len(words) > 2 or not all(word.isdecimal() for word in words):
        sys.exit(__doc__)
    runs, seed = int(words[0]) if words else 20, int(words[1]) if len(words) > 1 else 1
    counts, failed = {}, 0
    for k in range(runs):
        ended = subprocess.run([program, "batch"], input=Maker(seed + k).stream(), capture_output=True, timeout=120, check=False)
        statuses = replies(ended.stdout)
        if ended.returncode != 0 or statuses is None or len(statuses) != REQUESTS or not set(statuses) <= STATUSES:
            print(f"seed {seed + k}: status {ended.returncode}, {len(statuses or [])} replies, {ended.stderr.decode().strip()}")
            failed += 1
        for status in statuses or []:
            counts[status] = counts.get(status, 0) + 1
    print(" ".join(f"{status}: {counts[status]}" for status in sorted(counts)))
    print(f"stream: {runs - failed} passed, {failed} failed")
    sys.exit(1 if failed else 0)


if __name__ == "__main__":
    main()
