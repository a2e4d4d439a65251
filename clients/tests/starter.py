"""Calls of ./scadserve beside small sources, with nothing on the path but the utilities that it takes, and a stand-in for `rt`.
"""

import hashlib
import os
import shutil

from tests.calls import TOP, Calls

# Says what it was given, as the program would, and then what `rt try` says of the run.
RT = """#!/bin/sh
printf '%s\\n' "$PWD" "$@" >"$RT_LOG"
cat
echo "from the program" >&2
{ALSO}
printf 'checked: ended status={STATUS}\\nrun=ended status={STATUS} runners=1 races=unchecked proved=no\\n' >&2
exit {STATUS}
"""
UTILITIES = (
    "sh cat chmod cmp cut dirname find grep head id mkdir mktemp mv readlink rm sed sha256sum sleep sort stat tail uname xargs"
).split()
CRATES = "# all: crates\nbelow may_wait=1:\nscadserve: below\n"
SOURCES = {
    "HANDLES": "Handles allowed: none.\n",
    "crates.txt": CRATES,
    "crates/below/specs/Lib.antt": "2\n",
    "crates/below/src/lib.rt": "1\n",
    "crates/scadserve/src/main.rt": "fn main() {}\n",
}


class Starter(Calls):
    """A test that calls the starter `self.top`/scadserve beside these sources."""

    def setUp(self):
        super().setUp()
        self.top = self.path("top")
        for name, text in SOURCES.items():
            os.makedirs(os.path.dirname(os.path.join(self.top, name)), exist_ok=True)
            self.write(f"top/{name}", text)
        os.mkdir(self.path("top/tools"))
        for name in ("scadserve", "memory.sh", "tools/built.sh", "tools/unpack.sh"):
            shutil.copy(os.path.join(TOP, name), os.path.join(self.top, name))
        os.mkdir(self.path("bin"))
        for name in UTILITIES:
            os.symlink(shutil.which(name), self.path(f"bin/{name}"))
        self.environment.update(PATH=self.path("bin"), RT_LOG=self.path("rt.log"), TMPDIR=self.log)
        self.environment.update(XDG_STATE_HOME=self.path("state"))

    def program(self, name, text):
        os.chmod(self.path(self.write(name, text)), 0o755)

    def rt(self, status=0, also=":"):
        self.program("bin/rt", RT.replace("{STATUS}", str(status)).replace("{ALSO}", also))

    def serve(self, *words, tool=None, environment=None):
        """The status, the output and what is said of a call whose script is `a show`."""
        tool = tool or f"{self.top}/scadserve"
        status, out, error = self.call(*words, stdin=b"a show\n", tool=tool, environment=environment)
        self.assertEqual(os.listdir(self.log), [])
        return status, out, error.decode()

    def sum_of(self, name):
        return hashlib.sha256(self.read(name)).hexdigest()

    def sum_of_sources(self):
        """The sum of the sources, which is made here as docs/RELEASE.md has it."""
        listed = "".join(f"{self.sum_of('top/' + it)}  {it}\n" for it in sorted(SOURCES))
        return hashlib.sha256(listed.encode()).hexdigest()
