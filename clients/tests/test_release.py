"""Releases: of a commit whose gate is green alone, the same bytes from two clones, and enough for the tools to run.

The program is the stand-in for the server, and the sources are a crate or two: what is tested is what stands round them.
"""

from __future__ import annotations

import hashlib
import os
import re
import shutil
import subprocess
import sys
import tempfile
import unittest
import zipfile
from pathlib import Path

from scadserve.tools.catalogue import STARTER, STARTERS, TOOLS
from scadserve.version import VERSION
from tests import test_pages
from tests.calls import TOP
from tests.needs import needs

NAME = f"scadserve-{VERSION}-x86_64-linux"
TARBALL, PACKAGE = f"{NAME}.tar.gz", f"scadserve_{VERSION}_amd64.deb"
# What the release is made from, beside the starters of the tools.
TAKEN = [
    *("README.md", "CHANGELOG.md", "CONTRIBUTING.md", "clients", "docs", "examples", "gallery", "install.sh", "library"),
    *("memory.sh", "pyproject.toml", "scadserve", "tools", ".gitignore"),
]
# (the Python that runs this, and no rt)
PATH = f"{os.path.dirname(sys.executable)}:/usr/bin:/bin"
TRY_IT = "scad2off examples/bracket.scad -o $0/b.4off && off2stl $0/b.4off -o $0/b.stl && off2svg $0/b.4off -o $0/b.svg"
WHEEL = "import sys; sys.path.insert(0, 'tools'); import wheel; print(wheel.build_wheel(sys.argv[1]))"


def run(*words: str, at: Path, **environment: str) -> subprocess.CompletedProcess[str]:
    """A command at a folder, with no settings of this machine's user and no rt."""
    how = {"PATH": PATH, "HOME": str(at), "GIT_CONFIG_GLOBAL": "/dev/null", "GIT_CONFIG_NOSYSTEM": "1"}
    how.update(environment)
    pipes = {"stdout": subprocess.PIPE, "stderr": subprocess.PIPE}
    return subprocess.run(words, cwd=at, env=how, text=True, check=False, timeout=600, **pipes)


def sum_of(data: bytes) -> str:
    return hashlib.sha256(data).hexdigest()


def git(at: Path, *words: str) -> str:
    done = run("git", "-c", "user.name=A", "-c", "user.email=a@b.example", *words, at=at)
    assert done.returncode == 0, done.stderr
    return done.stdout.strip()


def repository(at: Path) -> None:
    """A repository with the files of this one that a release takes, and with small sources."""
    at.mkdir()
    for name in (*TAKEN, *(it for it in STARTERS if it not in TAKEN)):
        source, copy = Path(TOP, name), at / name
        copy.parent.mkdir(parents=True, exist_ok=True)
        if source.is_dir():
            shutil.copytree(source, copy, ignore=shutil.ignore_patterns("__pycache__", "tests"))
        else:
            shutil.copy(source, copy)
    test_pages.write_small_server(at)
    with open(at / "tools/statement_words.py", "a", encoding="utf-8") as words:
        words.write(test_pages.SMALL_WORDS)
    (at / "crates/scadserve/src").mkdir(parents=True)
    (at / "crates/scadserve/src/main.rt").write_text("fn main() {}\n")
    (at / "crates.txt").write_text("scadserve:\n")
    (at / "HANDLES").write_text("Handles allowed: none.\n")
    git(at, "init", "-q")
    git(at, "add", "-A")
    git(at, "commit", "-q", "-m", "all", "--date", "2001-02-03T04:05:06Z")


def build(at: Path, gate: str = "7 passed, 0 failed", tests: str = "3 passed, 0 failed, 1 skipped") -> None:
    """Leaves a program and the record of a gate, as .ci/run does."""
    # (as if it needed a C library of this version)
    program = Path(TOP, "clients/tests/stand_in.py").read_bytes() + b"# GLIBC_2.4 GLIBC_2.34 GLIBC_2.14\n"
    (at / "crates/scadserve/out").mkdir(exist_ok=True)
    (at / "crates/scadserve/out/scadserve").write_bytes(program)
    (at / "crates/scadserve/out/scadserve").chmod(0o755)
    listed = ""
    sources = [at / "HANDLES", at / "crates.txt", *at.glob("crates/*/src/**/*"), *at.glob("crates/*/specs/**/*")]
    for name in sorted(str(it.relative_to(at)) for it in sources if it.is_file()):
        listed += f"{sum_of((at / name).read_bytes())}  {name}\n"
    told = {"commit": git(at, "rev-parse", "HEAD"), "kit": "some kit", "gate": gate, "tests": tests}
    told.update(program=sum_of(program), sources=sum_of(listed.encode()))
    (at / "out").mkdir(exist_ok=True)
    (at / "out/gate").write_text("".join(f"{word} {it}\n" for word, it in told.items()))


@needs("git", "dpkg-deb", "tar", "gzip")
class Release(unittest.TestCase):
    folder: Path

    @classmethod
    def setUpClass(cls) -> None:
        made = tempfile.TemporaryDirectory()
        cls.addClassCleanup(made.cleanup)
        cls.folder = Path(made.name)
        cls.one = cls.folder / "one"
        repository(cls.one)
        build(cls.one)
        cls.done = run("tools/release.sh", at=cls.one)
        cls.here = cls.folder / NAME
        if cls.done.returncode == 0:
            run("tar", "-xzf", str(cls.one / "out" / TARBALL), at=cls.folder)

    def setUp(self) -> None:
        self.assertEqual((self.done.returncode, self.done.stderr), (0, ""))

    def test_another_clone_makes_the_same_bytes(self) -> None:
        two = self.folder / "elsewhere" / "two"
        two.parent.mkdir()
        git(self.folder, "clone", "-q", str(self.one), str(two))
        build(two, tests="4 passed, 0 failed")
        # (with other rights for new files, another time zone and other times)
        done = run("sh", "-c", "umask 077; git config tar.umask 0007; tools/release.sh", at=two, TZ="Asia/Tokyo")
        self.assertEqual((done.returncode, done.stderr), (0, ""))
        for name in (TARBALL, PACKAGE):
            self.assertEqual((two / "out" / name).read_bytes(), (self.one / "out" / name).read_bytes(), name)
        sums = "".join(f"{sum_of((two / 'out' / name).read_bytes())}  {name}\n" for name in (TARBALL, PACKAGE))
        self.assertEqual((done.stdout, self.done.stdout), (sums, sums))

    def assert_refused(self, at: Path, said: str) -> None:
        """No release is made, for a reason that is told."""
        done = run("tools/release.sh", at=at)
        self.assertEqual((done.returncode, done.stdout), (1, ""))
        self.assertIn(said, done.stderr)
        self.assertEqual([it for it in os.listdir(at / "out") if it.startswith("scadserve")], [])

    def test_it_has_the_statement_as_html(self) -> None:
        text = (self.here / "docs/statement/PROMISE.html").read_text(encoding="utf-8")
        self.assertIn('<section id="high.Tells">', text)
        self.assertIn('<a href="ALGORITHM.html#low.length_of">length_of</a>', text)
        for name in ("index.html", "LAWS.html", "statement.js", "statement.css", "names.js"):
            self.assertTrue((self.here / "docs/statement" / name).exists(), name)

    def test_what_is_not_that_of_a_green_gate_makes_no_release(self) -> None:
        at = self.folder / "refused"
        git(self.folder, "clone", "-q", str(self.one), str(at))
        (at / "out").mkdir()
        self.assert_refused(at, "no green gate is known of this commit")
        build(at, gate="6 passed, 1 failed")
        self.assert_refused(at, "the gate is not green: 6 passed, 1 failed")
        build(at, tests="2 passed, 1 failed, 1 skipped")
        self.assert_refused(at, "the tests are not green: 2 passed, 1 failed, 1 skipped")
        build(at)
        source = at / "crates/scadserve/src/main.rt"
        source.write_text("fn main() { }\n")
        self.assert_refused(at, "the tree has changes")
        git(at, "update-index", "--assume-unchanged", "crates/scadserve/src/main.rt")
        self.assert_refused(at, "the sources are not those of the gate")
        source.write_text("fn main() {}\n")
        git(at, "update-index", "--no-assume-unchanged", "crates/scadserve/src/main.rt")
        (at / "more.txt").touch()
        self.assert_refused(at, "the tree has changes")
        (at / "more.txt").unlink()
        with open(at / "crates/scadserve/out/scadserve", "ab") as it:
            it.write(b"#")
        self.assert_refused(at, "the program is not the one that the gate built")
        (at / "crates/scadserve/out/scadserve").unlink()
        self.assert_refused(at, "the program that the gate built is gone")
        build(at)
        git(at, "commit", "-q", "--allow-empty", "-m", "next")
        self.assert_refused(at, "no green gate is known of this commit")

    def test_it_says_what_was_proved_of_what(self) -> None:
        head, _, proved = (self.here / "PROVED").read_text().partition("\n\n")
        lines = head.splitlines()
        self.assertEqual(lines[0], f"scadserve {VERSION} for x86_64 Linux")
        told = (self.one / "out/gate").read_text().splitlines()
        self.assertEqual(lines[1:], [it for it in told if not it.startswith("tests ")])
        self.assertLessEqual(len(proved.splitlines()), 10)
        self.assertIn("Trusted are ", proved)

    def assert_works(self, path: str, at: Path) -> None:
        """README's lines work with this path, at a folder that has the examples."""
        with tempfile.TemporaryDirectory() as room:
            done = run("sh", "-c", TRY_IT, room, at=at, PATH=f"{path}:{PATH}")
            self.assertEqual(done.returncode, 0, done.stderr)
            self.assertRegex(done.stderr, r"\A\S*b\.4off: 6 faces, 12 triangles, .*; box 1 x 1 x 1; volume 1\n\Z")
            self.assertEqual(sorted(os.listdir(room)), ["b.4off", "b.stl", "b.svg"])
            self.assertTrue(Path(room, "b.stl").read_text().startswith("solid "))
        for name in (STARTER, *TOOLS):
            done = run(name, "--version", at=at, PATH=f"{path}:{PATH}")
            self.assertEqual((done.returncode, done.stdout, done.stderr), (0, f"{name} {VERSION}\n", ""))
        for word, begins in (("NotWhole", "## NotWhole\n"), ("if-child", "if-child: ")):
            done = run("scad2off", "--explain", word, at=at, PATH=f"{path}:{PATH}")
            self.assertTrue(done.stdout.startswith(begins), done.stderr)
        # (the library is found from any folder)
        with tempfile.TemporaryDirectory() as room:
            Path(room, "part.scad").write_text("use <round.scad>\nprism(5, 2);\n")
            done = run("scad2off", "--script", "part.scad", at=Path(room), PATH=f"{path}:{PATH}")
            self.assertEqual((done.returncode, "module prism(" in done.stdout), (0, True), done.stderr)

    def test_the_unpacked_tarball_works(self) -> None:
        self.assert_works(f"{self.here}:{self.here}/bin", self.here)

    def test_it_is_installed_and_then_stands_alone(self) -> None:
        moved = self.folder / "unpacked"
        shutil.copytree(self.here, moved)
        prefix = self.folder / "prefix of mine"
        for _ in range(2):
            done = run("./install.sh", str(prefix), at=moved)
            self.assertEqual((done.returncode, done.stdout, done.stderr), (0, "", ""))
        shutil.rmtree(moved)
        share = prefix / "share"
        self.assert_works(str(prefix / "bin"), share / "doc/scadserve")
        for name in (STARTER, *TOOLS):
            for place in (f"man/man1/{name}.1", f"bash-completion/completions/{name}", f"zsh/site-functions/_{name}"):
                self.assertTrue((share / place).is_file(), place)
        self.assertEqual(sorted(os.listdir(prefix / "bin")), sorted((STARTER, *TOOLS)))
        service = (share / "systemd/user/scadlive.service").read_text()
        self.assertIn(f'\nExecStart="{prefix}/bin/scadlive" %h/scad\n', service)

    def test_a_changed_program_is_not_installed(self) -> None:
        moved = self.folder / "changed"
        shutil.copytree(self.here, moved)
        with open(moved / "libexec/scadserve", "ab") as it:
            it.write(b"#")
        done = run("./install.sh", str(self.folder / "none"), at=moved)
        self.assertEqual((done.returncode, (self.folder / "none").exists()), (2, False))
        self.assertIn("not the program that PROVED names", done.stderr)
        for words in ([], ["relative"], ["/a", "/b"]):
            self.assertEqual(run("./install.sh", *words, at=self.here).returncode, 2)

    def test_the_package_holds_the_same(self) -> None:
        root = self.folder / "root"
        deb = str(self.one / "out" / PACKAGE)
        self.assertEqual(run("dpkg-deb", "-x", deb, str(root), at=self.folder).returncode, 0)
        self.assertEqual(run("dpkg-deb", "-e", deb, str(root / "control"), at=self.folder).returncode, 0)
        self.assert_works(str(root / "usr/bin"), root / "usr/share/doc/scadserve")
        told = (root / "control/control").read_text()
        self.assertIn(f"Package: scadserve\nVersion: {VERSION}\nArchitecture: amd64\n", told)
        self.assertIn("\nDepends: libc6 (>= 2.34), python3 (>= 3.9)\n", told)
        sums = (root / "control/md5sums").read_text().splitlines()
        files = [it for it in (root / "usr").rglob("*") if it.is_file() and not it.is_symlink() and it.suffix != ".pyc"]
        found = [f"{hashlib.md5(it.read_bytes()).hexdigest()}  {it.relative_to(root)}" for it in files]
        self.assertEqual(sorted(sums), sorted(found))
        owners = {it.split()[1] for it in run("dpkg-deb", "-c", deb, at=self.folder).stdout.splitlines()}
        self.assertEqual(owners, {"root/root"})

    def test_pages_of_the_release_lead_to_files_of_it(self) -> None:
        for page in (*self.here.glob("*.md"), *(self.here / "docs").rglob("*.md")):
            for target in re.findall(r"\]\(([^)\s#]+)[^)\s]*\)", page.read_text("utf-8")):
                if "://" not in target and not re.match(r"(\.\./)*(crates|bench|tools|clients/tests|wrong-bodies)/", target):
                    self.assertTrue((page.parent / target).exists(), f"{page.name}: {target}")

    def test_pip_makes_a_wheel_of_it_with_the_server(self) -> None:
        words = ["python3", "-B", "-c", WHEEL]
        made = []
        for at in (self.here, self.here, self.one):
            done = run(*words, str(self.folder), at=at)
            self.assertEqual((done.returncode, done.stderr), (0, ""))
            made.append((self.folder / done.stdout.strip()).read_bytes())
        self.assertEqual(made[0], made[1])
        self.assertTrue((self.folder / f"scadserve-{VERSION}-py3-none-linux_x86_64.whl").exists())
        # (of sources of which no program is known there is none in it)
        with zipfile.ZipFile(self.folder / f"scadserve-{VERSION}-py3-none-any.whl") as it:
            names = it.namelist()
            self.assertNotIn("scadserve/release/libexec/scadserve", names)
            record = it.read(f"scadserve-{VERSION}.dist-info/RECORD").decode().splitlines()
            self.assertEqual(sorted(line.split(",")[0] for line in record), sorted(names))
            self.assertIn("Requires-Python: >=3.9\n", it.read(f"scadserve-{VERSION}.dist-info/METADATA").decode())
            self.assertNotIn("Requires-Dist", it.read(f"scadserve-{VERSION}.dist-info/METADATA").decode())

    @needs("xz")
    def test_a_clone_with_its_program_packed_makes_a_wheel_with_the_server(self) -> None:
        at = self.folder / "packed"
        git(self.folder, "clone", "-q", str(self.one), str(at))
        build(at)
        self.assertEqual(run("tools/boot.sh", at=at).stderr, "")
        shutil.rmtree(at / "crates/scadserve/out")
        done = run("python3", "-B", "-c", WHEEL, str(self.folder), at=at)
        self.assertEqual((done.stdout, done.stderr), (f"scadserve-{VERSION}-py3-none-linux_x86_64.whl\n", ""))
        with zipfile.ZipFile(self.folder / done.stdout.strip()) as it:
            self.assertEqual(
                it.read("scadserve/release/libexec/scadserve"), (self.one / "crates/scadserve/out/scadserve").read_bytes()
            )

    def test_pip_installs_the_tools_and_the_module(self) -> None:
        if "--python" not in run("python3", "-m", "pip", "--help", at=self.folder).stdout:
            self.skipTest("needs pip")
        room = self.folder / "room"
        self.assertEqual(run("python3", "-m", "venv", "--without-pip", str(room), at=self.folder).returncode, 0)
        words = ["python3", "-m", "pip", "--python", str(room / "bin/python"), "install", "--no-index", "--quiet"]
        done = run(*words, "--disable-pip-version-check", ".", at=self.here)
        self.assertEqual(done.returncode, 0, done.stderr)
        self.assert_works(str(room / "bin"), self.here)
        done = run(str(room / "bin/python"), "-c", "import scadserve; print(scadserve.solve.__name__)", at=self.folder)
        self.assertEqual((done.returncode, done.stdout), (0, "solve\n"))


if __name__ == "__main__":
    unittest.main()
