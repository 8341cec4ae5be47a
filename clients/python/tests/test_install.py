"""Installing, taking away, the package, and that the version is one."""

import os
import shutil
import subprocess
import sys
import tempfile
import unittest
import urllib.request
from pathlib import Path
from typing import Dict, List, Set

from .support import HERE, PROGRAM

import workbook_client
from workbook_client.page import SCRIPTS

TOP = HERE.parents[3]
MODULES = HERE.parents[1] / "workbook_client"
OTHERS = {
    "bin/workbook", "bin/workbook-session", "bin/workbook-page", "bin/workbook-worker",
    "lib/systemd/system/workbook@.service",
    "lib/workbook/installed",
    *(f"lib/workbook/python/workbook_client/{name}" for name in ("page.html", "page.css", *SCRIPTS, "py.typed")),
    "share/man/man1/workbook.1",
    "share/bash-completion/completions/workbook",
    "share/zsh/site-functions/_workbook",
    "share/fish/vendor_completions.d/workbook.fish",
    "share/doc/workbook/LICENSE", "share/doc/workbook/CHANGELOG.md", "share/doc/workbook/PROTOCOL.md",
}
REQUESTS = '{"op":"domain","d":"D","is":"{1..3}"}\n{"op":"array","a":"A","d":"D"}\n{"op":"set","a":"A","i":1,"v":5}\n'
REPLIES = '{"edit":1,"n":3}\n{"edit":2,"n":6}\n{"edit":3,"n":1}\n'


def is_built() -> bool:
    """Whether the program is one that was built, and no script that wants the files beside it."""
    with open(PROGRAM, "rb") as file:
        return file.read(4) == b"\x7fELF"


def script(name: str, *words: object, **more: object) -> "subprocess.CompletedProcess[str]":
    """A script of the repository, run."""
    return started([sys.executable, TOP / "scripts" / name, *words], **more)


def started(words: List[object], **more: object) -> "subprocess.CompletedProcess[str]":
    return subprocess.run(
        [str(word) for word in words], stdout=subprocess.PIPE, stderr=subprocess.PIPE, text=True, timeout=120, **more  # type: ignore
    )


def files_below(folder: Path) -> Set[str]:
    """All that is below a folder, folders too."""
    return {str(path.relative_to(folder)) for path in folder.rglob("*")}


def environment(**more: str) -> Dict[str, str]:
    """Without what would lead to the repository's own program and library."""
    words = ("WORKBOOK_PROGRAM", "PYTHONPATH", "PYTHONDONTWRITEBYTECODE")
    return {**{key: word for key, word in os.environ.items() if key not in words}, **more}


@unittest.skipUnless((TOP / "scripts" / "install").exists(), "not in the repository")
@unittest.skipUnless(os.access(PROGRAM, os.X_OK), "no program")
class Scratch(unittest.TestCase):
    """A folder of its own, a prefix in it, and a program to install."""

    def setUp(self) -> None:
        folder = tempfile.TemporaryDirectory()
        self.addCleanup(folder.cleanup)
        self.scratch = Path(folder.name)
        self.prefix = self.scratch / "prefix"
        self.program = Path(PROGRAM).resolve()
        if not is_built():
            self.program = self.scratch / "stand-in"
            self.program.write_text(f'#!/bin/sh\nexec "{Path(PROGRAM).resolve()}" "$@"\n', encoding="utf-8")
            self.program.chmod(0o755)

    def install(self, *words: object) -> "subprocess.CompletedProcess[str]":
        return script("install", "--prefix", self.prefix, "--program", self.program, *words)

    def uninstall(self) -> "subprocess.CompletedProcess[str]":
        return script("install", "--uninstall", "--prefix", self.prefix)

    def run_there(self, name: str, *words: object, text: str = "") -> str:
        """What a command that was installed prints."""
        done = started([self.prefix / "bin" / name, *words], input=text, env=environment(), cwd=self.scratch)
        self.assertEqual(done.returncode, 0, done.stderr)
        return done.stdout


class TestInstall(Scratch):
    def test_each_file_is_there(self) -> None:
        done = self.install()
        self.assertEqual((done.returncode, done.stderr), (0, ""))
        modules = {f"lib/workbook/python/workbook_client/{path.name}" for path in MODULES.glob("*.py")}
        there = {path for path in files_below(self.prefix) if (self.prefix / path).is_file()}
        self.assertEqual(there, OTHERS | modules)
        for path in there:
            runs = os.access(self.prefix / path, os.X_OK)
            self.assertEqual(runs, path.startswith("bin/"), path)

    def test_the_commands_work_from_there(self) -> None:
        self.install()
        self.assertEqual(self.run_there("workbook", "run", text=REQUESTS), REPLIES)
        self.assertIn("edit 1, 3 cells", self.run_there("workbook-session", "--file", "-", text="D = {1..3}\n"))
        for name in ("workbook-session", "workbook-page", "workbook-worker"):
            self.assertTrue(self.run_there(name, "--help").startswith(f"usage: {name} [-h]"), name)

    def test_the_page_is_served_from_there(self) -> None:
        """With its style and its scripts."""
        self.install()
        words = [str(self.prefix / "bin" / "workbook-page"), "--port", "0"]
        with subprocess.Popen(words, stdout=subprocess.PIPE, text=True, env=environment(), cwd=self.scratch) as page:
            self.addCleanup(page.kill)
            assert page.stdout is not None
            address = next(line for line in page.stdout if "the page is at" in line).split()[4]
            for name in ("", "page.css", *SCRIPTS):
                asked = urllib.request.Request(address + name, headers={"Sec-Fetch-Site": "same-origin"})
                with urllib.request.urlopen(asked, timeout=10) as answer:
                    self.assertEqual(answer.status, 200)
            page.kill()

    def test_a_command_works_by_a_link(self) -> None:
        self.install()
        link = self.scratch / "session"
        link.symlink_to(self.prefix / "bin" / "workbook-session")
        done = started([link, "--file", "-"], input="D = {1..3}\n", env=environment(), cwd=self.scratch)
        self.assertIn("edit 1, 3 cells", done.stdout)

    def test_the_library_works_from_there(self) -> None:
        self.install()
        code = "import workbook_client as w; print(w.__version__, w.__file__)\nwith w.Workbook.run() as b: print(b.domain('D', range(3)).size)"
        there = {"PYTHONPATH": str(self.prefix / "lib/workbook/python"), "WORKBOOK_PROGRAM": str(self.prefix / "bin/workbook")}
        done = started([sys.executable, "-c", code], env=environment(**there), cwd=self.scratch)
        module = self.prefix / "lib/workbook/python/workbook_client/__init__.py"
        self.assertEqual(done.stdout, f"{workbook_client.__version__} {module}\n3\n", done.stderr)

    @unittest.skipUnless(shutil.which("bash"), "no bash")
    def test_bash_completes(self) -> None:
        self.install()
        code = f"source '{self.prefix}/share/bash-completion/completions/workbook'; COMP_WORDS=(workbook up); COMP_CWORD=1; _workbook; echo $COMPREPLY"
        self.assertEqual(started(["bash", "-c", code]).stdout, "upgrade\n")

    def test_the_man_page_has_the_version(self) -> None:
        self.install()
        page = (self.prefix / "share/man/man1/workbook.1").read_text(encoding="utf-8")
        self.assertIn(f'"workbook {workbook_client.__version__}"', page.splitlines()[0])

    def test_the_unit_starts_what_is_installed(self) -> None:
        self.install()
        unit = self.prefix / "lib/systemd/system/workbook@.service"
        lines = unit.read_text(encoding="utf-8").splitlines()
        self.assertIn(f"ExecStart={self.prefix}/bin/workbook serve --stay --idle ${{WORKBOOK_IDLE}} --journal %S/workbook/%i.wb --port %i --seats ${{WORKBOOK_SEATS}}", lines)
        self.assertNotIn("@", "".join(line for line in lines if not line.startswith("#")))
        if shutil.which("systemd-analyze"):
            done = started(["systemd-analyze", "verify", "--man=no", unit])
            self.assertEqual((done.returncode, done.stdout + done.stderr), (0, ""))


class TestUninstall(Scratch):
    def test_all_is_gone_and_nothing_else(self) -> None:
        (self.prefix / "bin").mkdir(parents=True)
        (self.prefix / "bin" / "another").write_text("kept")
        (self.prefix / "share/man/man1").mkdir(parents=True)
        before = files_below(self.prefix)
        self.install()
        self.run_there("workbook-session", "--file", "-", text="D = {1..3}\n")
        self.assertTrue(any("__pycache__" in path for path in files_below(self.prefix)))
        done = self.uninstall()
        self.assertEqual((done.returncode, done.stderr), (0, ""))
        self.assertEqual(files_below(self.prefix), before)
        self.assertEqual((self.prefix / "bin" / "another").read_text(), "kept")

    def test_what_another_put_into_our_folder_stays(self) -> None:
        self.install()
        (self.prefix / "lib/workbook/mine").write_text("kept")
        self.uninstall()
        self.assertEqual(files_below(self.prefix), {"lib", "lib/workbook", "lib/workbook/mine"})

    def test_nothing_was_installed(self) -> None:
        self.assertEqual(self.uninstall().returncode, 1)
        self.assertEqual(files_below(self.scratch) - {"stand-in"}, set())

    def test_installed_twice_is_gone_at_once(self) -> None:
        self.install()
        once = files_below(self.prefix)
        old = self.prefix / "share/doc/workbook/OLD"
        old.write_text("of an earlier version")
        with open(self.prefix / "lib/workbook/installed", "a", encoding="utf-8") as file:
            file.write("share/doc/workbook/OLD\n")
        self.assertEqual(self.install().returncode, 0)
        self.assertEqual(files_below(self.prefix), once)
        self.uninstall()
        self.assertEqual(files_below(self.prefix), set())

    def test_a_list_that_leads_elsewhere_removes_nothing_there(self) -> None:
        self.install()
        kept = self.scratch / "kept"
        kept.write_text("kept")
        with open(self.prefix / "lib/workbook/installed", "a", encoding="utf-8") as file:
            file.write(f"../kept\n{kept}\n")
        self.uninstall()
        self.assertTrue(kept.exists())


class TestRefusals(Scratch):
    def test_what_is_in_the_way_is_named_and_stays(self) -> None:
        (self.prefix / "bin").mkdir(parents=True)
        (self.prefix / "bin/workbook").write_text("another's")
        done = self.install()
        self.assertEqual(done.returncode, 1)
        self.assertIn(str(self.prefix / "bin/workbook"), done.stderr)
        self.assertEqual(files_below(self.prefix), {"bin", "bin/workbook"})
        self.assertEqual((self.prefix / "bin/workbook").read_text(), "another's")

    def test_no_program(self) -> None:
        done = script("install", "--prefix", self.prefix, "--program", self.scratch / "none")
        self.assertEqual(done.returncode, 2)
        self.assertIn("there is no program", done.stderr)
        self.assertFalse(self.prefix.exists())

    def test_a_folder_that_is_a_file(self) -> None:
        self.prefix.mkdir()
        (self.prefix / "share").write_text("a file")
        done = self.install()
        self.assertEqual((done.returncode, "Traceback" in done.stderr), (1, False))


class TestVersion(Scratch):
    def test_it_is_one(self) -> None:
        done = script("check/versions", *([PROGRAM] if is_built() else []))
        self.assertEqual(done.returncode, 0, done.stdout)
        for line in done.stdout.splitlines():
            self.assertEqual(line.split()[0], workbook_client.__version__, line)


@unittest.skipUnless(shutil.which("dpkg-deb"), "no dpkg-deb")
class TestPackage(Scratch):
    def setUp(self) -> None:
        super().setUp()
        done = script("package", "--program", self.program, self.scratch)
        self.assertEqual(done.returncode, 0, done.stderr)
        self.package = Path(done.stdout.strip())
        self.root = self.scratch / "root"

    def unpack(self) -> None:
        self.assertEqual(started(["dpkg-deb", "-x", self.package, self.root]).returncode, 0)

    def test_it_has_the_version(self) -> None:
        done = started(["dpkg-deb", "-f", self.package, "Package", "Version"])
        self.assertEqual(done.stdout, f"Package: workbook\nVersion: {workbook_client.__version__}\n")

    def test_it_works_from_its_root(self) -> None:
        self.unpack()
        done = started([self.root / "usr/bin/workbook", "run"], input=REQUESTS, env=environment(), cwd=self.scratch)
        self.assertEqual(done.stdout, REPLIES)
        words = [sys.executable, self.root / "usr/bin/workbook-session", "--file", "-"]
        done = started(words, input="D = {1..3}\n", env=environment(), cwd=self.scratch)
        self.assertIn("edit 1, 3 cells", done.stdout)

    def test_its_tests_run_from_there(self) -> None:
        self.unpack()
        place = self.root / "usr/share/workbook/clients/python"
        there = environment(WORKBOOK_PROGRAM=str(self.root / "usr/bin/workbook"), PYTHONDONTWRITEBYTECODE="1")
        words = [sys.executable, "-m", "unittest", "-v", "tests.test_language", "tests.test_install"]
        done = started(words, env=there, cwd=place)
        self.assertEqual(done.returncode, 0, done.stderr)
        self.assertIn("not in the repository", done.stderr)
        self.assertEqual({path.name for path in (place / "tests").glob("*.py")}, {path.name for path in HERE.parent.glob("*.py")})

    @unittest.skipUnless(hasattr(os, "geteuid") and os.geteuid() == 0 and shutil.which("dpkg"), "not root, or no dpkg")
    def test_dpkg_installs_and_removes_it(self) -> None:
        for folder in ("info", "updates"):
            (self.root / "var/lib/dpkg" / folder).mkdir(parents=True)
        for name in ("status", "available"):
            (self.root / "var/lib/dpkg" / name).touch()
        dpkg = ["dpkg", f"--root={self.root}", "--force-depends", "--force-script-chrootless"]
        done = started([*dpkg, "-i", self.package])
        self.assertEqual(done.returncode, 0, done.stderr)
        self.assertTrue((self.root / "usr/share/man/man1/workbook.1.gz").exists())
        for folder in ("lib/python3/dist-packages/workbook_client", "share/workbook/clients/python/tests"):
            cache = self.root / "usr" / folder / "__pycache__"
            cache.mkdir()
            (cache / "book.cpython-311.pyc").touch()
        done = started([*dpkg, "--purge", "workbook"])
        self.assertEqual(done.returncode, 0, done.stderr)
        self.assertFalse((self.root / "usr").exists())


if __name__ == "__main__":
    unittest.main()
