"""The release: made twice it is the same, it says from what it was made, and out of an empty root it plays a game."""
from __future__ import annotations

import hashlib
import os
import pathlib
import re
import shutil
import subprocess
import sys
import tarfile
import tempfile
import unittest

HERE = pathlib.Path(__file__).resolve().parent
sys.path.insert(0, str(HERE.parent.parent / "examples" / "tests"))
import helpers

RELEASE = HERE.parent / "release.sh"
WANTED = ["git", "dpkg-deb", "tar", "gzip"]


def files_of(folder: pathlib.Path) -> dict[str, tuple[str, int]]:
    """Each file below a folder, with the sum of what it holds, or where it leads to, and its mode."""
    found = {}
    for path in sorted(folder.rglob("*")):
        name = str(path.relative_to(folder))
        if path.is_symlink():
            found[name] = (os.readlink(path), 0)
        elif path.is_file():
            found[name] = (hashlib.sha256(path.read_bytes()).hexdigest(), path.stat().st_mode)
    return found


@helpers.wants_program
@unittest.skipUnless(all(map(shutil.which, WANTED)) and (helpers.ROOT / ".git").exists(), "no " + ", ".join(WANTED) + " or no clone")
class Release(unittest.TestCase):
    folder: pathlib.Path
    told: list[str]
    package: pathlib.Path
    archive: pathlib.Path
    root: pathlib.Path  # where the package is installed
    usr: pathlib.Path

    @classmethod
    def setUpClass(cls) -> None:
        folder = tempfile.TemporaryDirectory()
        cls.addClassCleanup(folder.cleanup)
        cls.folder = pathlib.Path(folder.name)
        cls.told = [cls.make("one", umask=0o077), cls.make("two", umask=0o002)]
        cls.package, cls.archive = [next((cls.folder / "one").glob(ending)) for ending in ("*.deb", "*.tar.gz")]
        cls.root = cls.folder / "root"
        cls.usr = cls.root / "usr"
        if os.geteuid() == 0:
            cls.install()
        else:  # who may install nothing unpacks it
            subprocess.run(["dpkg-deb", "-x", cls.package, cls.root], check=True)

    @classmethod
    def install(cls) -> None:
        """Installs the package in the root, to be removed at the end."""
        (cls.root / "var/lib/dpkg/info").mkdir(parents=True)
        (cls.root / "var/lib/dpkg/updates").mkdir()
        (cls.root / "var/lib/dpkg/status").touch()
        cls.dpkg("--install", str(cls.package))
        cls.addClassCleanup(cls.remove)

    @classmethod
    def dpkg(cls, *words: str) -> None:
        """Runs dpkg in a root of its own, in which nothing else is installed."""
        forced = "--force-depends,not-root,script-chrootless,bad-path"
        done = subprocess.run(["dpkg", f"--root={cls.root}", forced, *words], capture_output=True, text=True, timeout=60)
        assert done.returncode == 0, done

    @classmethod
    def remove(cls) -> None:
        """Removes the package, after which nothing of it is left, nor what Python kept of it."""
        (cls.usr / "share/riichi-table/examples/__pycache__").mkdir()
        cls.dpkg("--remove", "riichi-table")
        left = [path for path in cls.usr.rglob("*") if "riichi" in path.name]
        assert not left, left

    @classmethod
    def make(cls, name: str, umask: int) -> str:
        """Makes the release in a folder of this name, from a working folder and with a mask of its own."""
        folder = cls.folder / name
        folder.mkdir()
        made = subprocess.run(
            [RELEASE, helpers.PROGRAM, folder], cwd=folder, umask=umask, env={**os.environ, "TZ": f"UTC-{len(name)}"},
            capture_output=True, text=True, timeout=120)
        assert made.returncode == 0, made
        return made.stdout

    def test_made_twice_it_is_the_same(self) -> None:
        self.assertEqual(self.told[0], self.told[1])
        self.assertEqual(files_of(self.folder / "one").keys(), files_of(self.folder / "two").keys())
        for path in (self.package, self.archive):
            self.assertEqual(path.read_bytes(), (self.folder / "two" / path.name).read_bytes())

    def test_it_says_from_what_it_was_made(self) -> None:
        commit = subprocess.run(["git", "rev-parse", "HEAD"], cwd=helpers.ROOT, capture_output=True, text=True, check=True).stdout.strip()
        logic = re.findall(r"the logic `([0-9a-f]{16})`", (helpers.ROOT / "README.md").read_text(encoding="utf-8"))[0]
        program = hashlib.sha256(pathlib.Path(helpers.PROGRAM).read_bytes()).hexdigest()
        told = (self.usr / "share/doc/riichi-table/RELEASE").read_text()
        control = subprocess.run(["dpkg-deb", "-f", self.package], capture_output=True, text=True, check=True).stdout
        for text in (told, control, self.told[0]):
            for part in (commit, logic, program):
                self.assertIn(part, text)
        self.assertEqual(hashlib.sha256((self.usr / "bin/riichi_table").read_bytes()).hexdigest(), program)

    def test_the_package_and_the_archive_hold_the_same(self) -> None:
        unpacked = self.folder / "unpacked"
        with tarfile.open(self.archive) as archive:
            self.assertEqual({(it.uid, it.gid, it.uname, it.gname) for it in archive.getmembers()}, {(0, 0, "", "")})
            self.assertEqual(len({it.mtime for it in archive.getmembers()}), 1)
            archive.extractall(unpacked)
        top, = unpacked.iterdir()
        self.assertEqual(files_of(top), files_of(self.usr))
        sums = subprocess.run(["dpkg-deb", "--ctrl-tarfile", self.package], capture_output=True, check=True).stdout
        self.assertIn(b"usr/bin/riichi_table", sums)

    def test_what_it_holds(self) -> None:
        held = files_of(self.usr)
        self.assertFalse([name for name in held if "tests" in name or "pycache" in name])
        for name in ("examples/customs.py", "examples/caller.py", "league/walls.py", "league/bots.json", "viewer/index.html"):
            self.assertIn(f"share/riichi-table/{name}", held)
        commands = sorted(name for name in held if name.startswith("bin/"))
        wanted = ["bridge", "export", "league", "live", "page", "play", "split"]
        self.assertEqual(commands, [*(f"bin/riichi-table-{name}" for name in wanted), "bin/riichi_table"])
        for name in commands:
            self.assertTrue(os.access(self.usr / name, os.X_OK), name)

    def test_the_manual_page_is_sound(self) -> None:
        if not shutil.which("groff"):
            self.skipTest("no groff")
        page = self.usr / "share/man/man1/riichi_table.1.gz"
        text = subprocess.run(["gzip", "-cd", page], capture_output=True, check=True).stdout
        told = subprocess.run(["groff", "-man", "-Tascii", "-ww", "-z"], input=text, capture_output=True, timeout=60)
        self.assertEqual((told.returncode, told.stderr), (0, b""))
        usage = subprocess.run([helpers.PROGRAM], capture_output=True, text=True, timeout=60).stderr
        for line in usage.splitlines():
            for command in line.removeprefix("usage: riichi_table ").split(" | "):
                self.assertIn(f"riichi_table {command.split()[0]}".encode(), text)

    def test_one_command_plays_a_game_and_the_others_run(self) -> None:
        folder = self.folder / "game"
        folder.mkdir()
        env = {"PATH": f"{self.usr / 'bin'}:{os.environ['PATH']}", "PYTHONDONTWRITEBYTECODE": "1"}
        ended = subprocess.run(["riichi-table-play"], cwd=folder, env=env, capture_output=True, text=True, timeout=150)
        self.assertEqual((ended.returncode, ended.stderr), (0, ""), ended)
        self.assertIn("dora: left\n", ended.stdout)
        record = (folder / "record.txt").read_bytes()
        self.assertTrue(helpers.is_sound(record))
        self.assertIn(record.split(b"\n")[-2].decode(), (folder / "record.html").read_text(encoding="utf-8"))
        for command in ("bridge", "league", "export", "live"):
            told = subprocess.run([f"riichi-table-{command}", "--help"], cwd=folder, env=env, capture_output=True, text=True, timeout=60)
            self.assertEqual((told.returncode, told.stderr), (0, ""))
        with open(folder / "game.mjson", "wb") as file:
            subprocess.run(["riichi-table-export", "record.txt"], cwd=folder, env=env, stdout=file, check=True, timeout=60)
        back = subprocess.run(["riichi-table-export", "--back", "game.mjson"], cwd=folder, env=env, capture_output=True, timeout=60)
        self.assertEqual((back.returncode, back.stdout), (0, record))

    def test_a_program_that_is_not_there_is_named(self) -> None:
        told = subprocess.run([RELEASE, "/no/program", self.folder / "none"], capture_output=True, text=True, timeout=60)
        self.assertEqual((told.returncode, told.stderr), (1, "release.sh: /no/program is no program that can be run\n"))
        self.assertFalse((self.folder / "none").exists())


if __name__ == "__main__":
    unittest.main()
