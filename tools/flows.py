#!/usr/bin/env python3
"""Writes requests for `conductor batch` on standard output: many flows, from their starts to their ends.

    python3 tools/flows.py N > FILE

The requests register the tasks `pick` and `pack` and the workflow `order` of one of each, and start N flows. Then each
flow's `pick` is polled and completed, then each flow's `pack`, and at last the last flow is read. Each request states its
moment; no two state the same.

A new store numbers flows and tasks from 1. The N starts make the tasks 1 to N, one of `pick` each. Completing task k makes
task N + k, one of `pack`. Of the tasks that wait, a poll gives the one that was ready first, so the k-th poll of a name gives
the k-th task of that name. Where the program gives ids in any other way, its replies to updates are 404.

N is 1 to 20000, the number of flows that a store takes.
"""

import json
import sys

MARK = 1
MOST_FLOWS = 20000


def id_text(kind, number):
    """The id of that number: kind 1 is a flow, kind 2 a task."""
    return f"{MARK:08x}-{kind:02x}00-8000-8000-{number:012x}"


def request(line, moment, body=None):
    """The bytes of a request: method and target, its moment in milliseconds, and a document as its body."""
    head = f"{line} HTTP/1.1\r\nMoment-Ms: {moment}\r\n"
    if body is None:
        return f"{head}\r\n"
    text = json.dumps(body, separators=(",", ":"))
    return f"{head}Content-Length: {len(text)}\r\n\r\n{text}"


def requests(flows):
    """The lines of all requests, each with its body where it has one."""
    yield "POST /api/metadata/taskdefs", [{"name": "pick"}, {"name": "pack"}]
    tasks = [
        {"name": "pick", "taskReferenceName": "a"},
        {"name": "pack", "taskReferenceName": "b"},
    ]
    yield "POST /api/metadata/workflow", {"name": "order", "tasks": tasks}
    for flow in range(1, flows + 1):
        yield "POST /api/workflow/order", {"id": flow}
    for name, first in (("pick", 1), ("pack", flows + 1)):
        for flow in range(1, flows + 1):
            yield f"GET /api/tasks/poll/{name}?workerid=w1", None
            yield "POST /api/tasks", {
                "workflowInstanceId": id_text(1, flow),
                "taskId": id_text(2, first + flow - 1),
                "status": "COMPLETED",
                "outputData": {name: flow},
            }
    yield f"GET /api/workflow/{id_text(1, flows)}", None


def main():
    words = sys.argv[1:]
    if len(words) != 1 or not words[0].isdecimal() or not 1 <= int(words[0]) <= MOST_FLOWS:
        sys.exit(__doc__)
    for moment, (line, body) in enumerate(requests(int(words[0]))):
        sys.stdout.write(request(line, moment, body))


if __name__ == "__main__":
    main()
