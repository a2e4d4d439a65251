#!/usr/bin/env -S python3 -S
"""Stands in for the server in tests of its clients: answers scripts at once, in the server's form, and evaluates nothing.

A source is a box with sides of 1, or of what the last `w=N` in it says. A number with a fraction is a fault, as it is for the
server. A line `//= WORDS` of a source asks for another answer: `empty`, `open` (a statement that the next line would end),
`nomem`, or a reply of one line. A line that is put as `//= unput` is answered nomem. Words for the whole run are
`//= status N`, `//= cut off`, `//= silence` and `//= wait`. With STAND_IN_LOG each run's words and script are left in files of
that folder.
"""

import os
import re
import sys
import time

BOX = "4OFF\n8 6 0\n0 0 0 1\n0 0 {0} 1\n0 {0} {0} 1\n0 {0} 0 1\n{0} 0 0 1\n{0} {0} 0 1\n{0} {0} {0} 1\n{0} 0 {0} 1\n" + (
    "4 0 1 2 3\n4 4 5 6 7\n4 0 4 7 1\n4 3 2 6 5\n4 0 3 5 4\n4 1 7 6 2\n"
)


def export(lines):
    """The reply to an export of these lines, without its number."""
    for number, line in enumerate(lines, 1):
        asked = re.fullmatch(rb"//= (.*?)\r?", line)
        if asked and asked[1] == b"empty":
            return b"solid 2\n4OFF\n0 0 0\n"
        if asked and asked[1] == b"open":
            return b"fault %d:1 Expected\n" % (number + 1)
        if asked:
            return asked[1] + b"\n"
        fraction = re.search(rb"(?<![\w.])\d+\.\d*[1-9]", line.split(b"//")[0])
        if fraction:
            return b"fault %d:%d NotWhole\n" % (number, fraction.start() + 1)
    if not any(lines):
        return b"solid 2\n4OFF\n0 0 0\n"
    sides = re.findall(rb"\bw *= *(\d+)", b"\n".join(lines))
    return b"solid 16\n" + BOX.format(int(sides[-1]) if sides else 1).encode()


def reply(lines, command):
    """Does a command to a client's lines, and gives its reply without the number."""
    words = command.split(b" ", 2)
    if words[0] == b"export":
        return export(lines)
    if words[0] == b"cut":
        if not 1 <= int(words[1]) <= int(words[2]) <= len(lines):
            return b"refused NoSuchLine\n"
        del lines[int(words[1]) - 1 : int(words[2])]
    elif words[2:] == [b"//= unput"]:
        return b"nomem\n"
    else:
        if not 1 <= int(words[1]) <= len(lines) + 1:
            return b"refused NoSuchLine\n"
        lines.insert(int(words[1]) - 1, b"".join(words[2:]))
    return b"ok %d\n" % len(lines)


def log(script):
    """Leaves the words and the script of this run in files of their own."""
    folder = os.environ.get("STAND_IN_LOG")
    if folder:
        number = len(os.listdir(folder)) // 2
        for kind, data in ((b"words", b" ".join(map(os.fsencode, sys.argv[1:]))), (b"script", script)):
            with open(os.path.join(os.fsencode(folder), b"%d.%b" % (number, kind)), "wb") as it:
                it.write(data)


def main():
    script = sys.stdin.buffer.read()
    log(script)
    status = re.search(rb"//= status (\d+)", script)
    if b"//= wait" in script:
        time.sleep(60)
    if status:
        return int(status[1])
    clients = {}
    for line in re.findall(rb"(.*?)\r?\n", script):
        name, _, command = line.partition(b" ")
        lines, replies = clients.setdefault(name, ([], []))
        replies.append(b"%d " % (len(replies) + 1) + reply(lines, command))
    output = b"".join(b"== " + name + b"\n" + b"".join(replies) for name, (_, replies) in clients.items())
    if b"//= cut off" in script:
        output = output[: len(output) // 2]
    if b"//= silence" not in script:
        sys.stdout.buffer.write(output)
    return 0


if __name__ == "__main__":
    sys.exit(main())
