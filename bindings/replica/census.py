"""What a replica counts of the accepted lines: the known blocks, the alive DataNodes, and those of
them that have reported. No query has these numbers."""

import json
import re

# A line that may change a count has one of these words, or an escape.
MARK = re.compile(rb'"(?:add|delete|register|dead|storage_failed|report)"|\\u')

# Lines that are read fast: no other `op` comes after the first.
OF_BLOCK = re.compile(rb'\{"op":"(add|delete)","id":\d+(?:,"(?:gen|len|repl)":\d+)*\}')
REPORT = re.compile(rb'\{"op":"report","storage":(\d+),"blocks":[][\d,]*\}')


class Census:
    def __init__(self):
        self.blocks = 0
        # The storages of each alive node, the node of each storage, and the nodes of which a
        # storage has sent a full report.
        self.nodes, self.node_of, self.reported = {}, {}, set()

    def take(self, text, answers):
        """Counts whole lines with their answers."""
        answers = answers.split(b"\n")
        # The first byte of a line, and its number.
        at = number = 0
        while found := MARK.search(text, at):
            start = text.rfind(b"\n", at, found.start()) + 1 or at
            end = text.index(b"\n", start)
            number += text.count(b"\n", at, start)
            if answers[number].startswith(b"ok "):
                self.take_accepted(text[start:end])
            at, number = end + 1, number + 1

    def take_accepted(self, line):
        if found := OF_BLOCK.fullmatch(line):
            self.blocks += 1 if found[1] == b"add" else -1
        elif found := REPORT.fullmatch(line):
            self.reported.add(self.node_of[int(found[1])])
        else:
            self.take_fields(json.loads(line))

    def take_fields(self, fields):
        op = fields["op"]
        if op == "add":
            self.blocks += 1
        elif op == "delete":
            self.blocks -= 1
        elif op == "register":
            self.nodes[fields["node"]] = fields["storages"]
            self.node_of.update(dict.fromkeys(fields["storages"], fields["node"]))
        elif op == "dead":
            for storage in self.nodes.pop(fields["node"]):
                self.node_of.pop(storage, None)
            self.reported.discard(fields["node"])
        elif op == "storage_failed":
            node = self.node_of.pop(fields["storage"])
            self.nodes[node] = [it for it in self.nodes[node] if it != fields["storage"]]
        elif op == "report":
            self.reported.add(self.node_of[fields["storage"]])
