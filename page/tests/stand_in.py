#!/usr/bin/env python3
"""A stand-in for the program in tests of the bridge. It takes the words of a node, answers typed lines as a file of JSON
beside the journal says, and writes down its words and each line that it was handed.

The file PATH.script has these, each of which may be left out:
    show      the lines of the drawing, without the last
    polls     what the polls print in turn, each a list of lines with its last one
    refused   why lines are refused, by these lines
    end       the line before which it ends, after a front of its answer, and its status: ["show", "rect 1.", 7]
    first     what it prints in the place of `ready`
    status    the status with which it ends after that
    who       what it answers to `who`, without the last line
Asked for `replay`, it prints what stands in the journal, and writes its words beside that. Asked for `upgrade`, it prints that, of
one event, in the newest version."""

import json
import os
import sys
from pathlib import Path


def put(text):
    os.write(1, text.encode())


class Answers:
    """What answers typed lines: edits by rising stamps, and those between `begin` and `end` all at once."""

    def __init__(self, script):
        self.script, self.made, self.noted, self.waiting = script, 0, 0, None

    def lines(self, line):
        """The lines that answer a typed one."""
        verb = line.split(" ")[0]
        if verb == "begin":
            self.waiting = []
            return []
        if verb == "end":
            waiting, self.waiting = self.waiting, None
            return [*(self.edit(each) for each in waiting), f"end {len(waiting)}"]
        if self.waiting is not None:
            self.waiting.append(line)
            return []
        return self.alone(verb, line)

    def edit(self, line):
        if line in self.script.get("refused", {}):
            return f"refused: {self.script['refused'][line]}"
        self.made += 1
        return f"ok {self.made}.1"

    def alone(self, verb, line):
        """The answer to a line that stands in no gesture."""
        shown, polls = self.script.get("show", []), self.script.setdefault("polls", [])
        if verb == "show":
            return [*shown, f"end {len(shown)}"]
        if verb == "poll":
            return polls.pop(0) if polls else ["polled 0"]
        if verb == "who":
            told = self.script.get("who", ["who 1 - focus -"])
            return [*told, f"end {len(told)}"]
        if verb == "status":
            return [f"held 0 kept 0 line 0 clock {self.made}"]
        if verb in ("name", "focus"):
            self.noted += 1
            return [f"noted {self.noted}"]
        done = self.edit(line)
        return [done, "end 1"] if verb in ("undo", "redo") and done.startswith("ok ") else [done]


def serve(journal, script, words):
    Path(f"{journal}.words").write_text(json.dumps(words))
    if "first" in script:
        put(script["first"])
        sys.exit(script["status"])
    put(f"ready {words[words.index('--site') + 1]} of 2\n")
    before, front, status = script.get("end", [None, "", 0])
    answers = Answers(script)
    with open(f"{journal}.typed", "a", encoding="utf-8", newline="\n") as typed:
        for given in sys.stdin.buffer:
            line = given.decode().rstrip("\n")
            print(line, file=typed, flush=True)
            if line == "quit":
                return
            if line == before:
                put(front)
                sys.exit(status)
            put("".join(each + "\n" for each in answers.lines(line)))


def upgraded(given):
    # A node is started without what this takes along.
    sys.path.insert(0, str(Path(__file__).resolve().parent.parent.parent))
    from page.tests.logs import header, log

    return log(header()[:5] + given[5:11], given[12:-1])


def main(words):
    if words[0] == "replay":
        Path(f"{os.readlink('/proc/self/fd/0')}.replayed").write_text(" ".join(words))
        sys.stdout.buffer.write(sys.stdin.buffer.read())
        return
    if words[0] == "upgrade":
        sys.stdout.buffer.write(upgraded(sys.stdin.buffer.read()))
        return
    journal = words[words.index("--journal") + 1]
    script = Path(f"{journal}.script")
    serve(journal, json.loads(script.read_text()) if script.exists() else {}, words)


if __name__ == "__main__":
    main(sys.argv[1:])
