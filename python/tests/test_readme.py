"""README: at most 9 KB, and every command and program in it does what it says."""
import os
import re
import shutil
import subprocess
import sys
import tempfile
import unittest
from pathlib import Path
from typing import Dict, List

from .support import REPOSITORY

README = (REPOSITORY / "README.md").read_text("utf-8")
ELSEWHERE = {"make octant": "octant-check of the gate", "make test": "the gate itself",
             "make run": "test_make_run, below"}


def commands() -> List[str]:
    """The indented lines, without their comments."""
    found = [line.split("  #")[0].split("#  ")[0].strip() for line in README.splitlines() if line.startswith("    ")]
    inside = [block for block in re.findall(r"```.*?```", README, re.S)]
    return [line for line in found if line and not any(line in block for block in inside)]


def blocks(language: str) -> List[str]:
    return re.findall(rf"```{language}\n(.*?)```", README, re.S)


class Readme(unittest.TestCase):
    def setUp(self) -> None:
        folder = tempfile.TemporaryDirectory()
        self.addCleanup(folder.cleanup)
        self.folder = Path(folder.name)
        os.symlink(REPOSITORY / "sample", self.folder / "sample")
        tools = self.folder / "tools"
        tools.mkdir()
        (tools / "spargolutta").write_text(f'#!/bin/sh\nexec {sys.executable} -m spargolutta "$@"\n')
        (tools / "spargolutta").chmod(0o755)
        self.env: Dict[str, str] = {**os.environ, "PYTHONPATH": str(REPOSITORY / "python"),
                                    "PATH": f"{tools}{os.pathsep}{os.environ['PATH']}"}

    def shell(self, command: str, status: int = 0) -> str:
        done = subprocess.run(["bash", "-ec", command], cwd=self.folder, env=self.env, capture_output=True, check=False)
        self.assertEqual(done.returncode, status, (command, done.stderr.decode()))
        return done.stdout.decode()

    def test_size(self) -> None:
        self.assertLessEqual(len(README.encode()), 9 * 1024)

    def test_commands(self) -> None:
        """Each command is run here, or named with the test that runs it."""
        left = [command for command in commands() if command not in ELSEWHERE]
        verbs = [command for command in left if command.startswith("spargolutta ")]
        self.assertEqual([command for command in left if command not in verbs],
                         ["pip install ./python", "cc client.c $(pkg-config --cflags --libs spargolutta)"])
        self.assertEqual(len(verbs), 7)
        for command in verbs:
            refused = "stops.txt" in command
            self.shell(command, 1 if refused else 0)
        found = (self.folder / "found.csv").read_text("utf-8")
        self.assertIn("H3,Φάρος (on the corner),1,Λιμάνι Ηλιος,boundary,7", found)
        self.assertGreater((self.folder / "map.html").stat().st_size, 20_000)

    def test_table_is_what_is_printed(self) -> None:
        table = blocks("")[0].strip().splitlines()
        self.shell("spargolutta zone sample/harbours.geojson --number-from number -o h.book")
        printed = self.shell("spargolutta which h.book sample/stops.txt --all", 1).splitlines()
        self.assertTrue(set(table) <= set(printed), set(table) - set(printed))

    def test_c_program(self) -> None:
        """Compiled against the library that these tests use, and run on the sample's harbour."""
        (self.folder / "client.c").write_text(blocks("c")[0])
        library = os.environ.get("SPARGOLUTTA_LIBRARY", str(REPOSITORY / "target/sharedlib/libspargolutta.so"))
        self.shell(f"cc -std=c99 -Wall -Wextra -Werror -o client client.c -I{REPOSITORY}/include {library}")
        self.shell("spargolutta zone sample/harbours.geojson --number-from number -o zones/")
        self.env["LD_LIBRARY_PATH"] = self.soname_folder(library)
        self.assertEqual(self.shell("./client zones/1.sheet"), "boundary (3), place 7\n")

    def soname_folder(self, library: str) -> str:
        folder = self.folder / "lib"
        folder.mkdir()
        os.symlink(library, folder / "libspargolutta.so.1")
        return str(folder)

    def test_python_program(self) -> None:
        shutil.copy(REPOSITORY / "README.md", self.folder)
        (self.folder / "client.py").write_text(blocks("python")[0], "utf-8")
        printed = self.shell(f"{sys.executable} -W ignore client.py").splitlines()
        self.assertEqual(printed[0], "Verdict(number=1, place=0, count=0)")
        self.assertRegex(printed[1], r"^\[1,? 2\]$")
        self.assertEqual(printed[2], "[Sets(inside=1, boundary=0, refused=0)]")

    def test_pip_install(self) -> None:
        """Offline, into a folder of its own; built from the C file with the C compiler."""
        pip = [sys.executable, "-m", "pip"]
        if subprocess.run([*pip, "--version"], capture_output=True, check=False).returncode != 0:
            print("pip is not there: pip install ./python is not tested", file=sys.stderr)
            self.skipTest("pip is not there")
        self.shell(f"{' '.join(pip)} install --quiet --no-index --no-warn-script-location --target installed "
                   f"{REPOSITORY}/python")
        self.env["PYTHONPATH"] = str(self.folder / "installed")
        self.env.pop("SPARGOLUTTA_LIBRARY", None)
        self.shell(f"{sys.executable} -m spargolutta zone sample/berths.geojson --grid fine -o b.sheet")
        self.assertTrue((self.folder / "installed/bin/spargolutta").exists())

    def test_make_run(self) -> None:
        """The main job on the sample, from a clean copy of what it needs, in under 15 s of processor time."""
        for name in ("Makefile", "include", "packaging", "portable", "python", "sample", "crates.txt", "crates"):
            (self.folder / "tree").mkdir(exist_ok=True)
            os.symlink(REPOSITORY / name, self.folder / "tree" / name)
        printed = self.shell("time -p make -s -C tree run 2> said")
        self.assertEqual(printed.count("\n"), 16)
        self.assertTrue(printed.endswith("The page: target/run/map.html\n"))
        said = (self.folder / "said").read_text("utf-8")
        self.assertIn("sample/stops.txt, line 17: refused: no degrees: longitude '23.6', latitude 'thirty-eight'", said)
        self.assertIn("stop A1 (Opposite the islands' known point): 18, query opposite the known point, zone 2", said)


if __name__ == "__main__":
    unittest.main()
