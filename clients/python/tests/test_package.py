"""The package: its README's program, its types, its installation and its version."""

import os
import re
import shutil
import subprocess
import sys
import tempfile
import unittest

import support
import jorveuk

SOURCES = os.path.join(support.CLIENT, "src")

# What a program that is checked may say, and what it may not.
RIGHT = """\
from datetime import datetime, timedelta
from typing import Optional
from uuid import UUID

from jorveuk import Key, KeyRing, OpenedTimed, key_of

def check(ring: KeyRing, cookie: Optional[str]) -> None:
    cookies = ring.purpose("shop").purpose("cookie")
    text: str = cookies.unprotect_text(cookie).plain
    data: bytes = cookies.unprotect(cookies.protect(b"")).plain
    link: OpenedTimed[str] = cookies.unprotect_text_timed(cookies.protect_text_timed("", timedelta(1)))
    until: datetime = link.expires
    renew: bool = link.renew
    made: UUID = ring.roll(activation=until, expiration=timedelta(days=90))
    ring.revoke(key_of(text), "lost")
    keys: "tuple[Key, ...]" = ring.state().keys
"""
WRONG = [
    "text: bytes = cookies.unprotect_text(cookie).plain",
    "cookies.protect_text(b'')",
    "cookies.protect('')",
    "cookies.protect_text_timed('', 3600)",
    "ring.revoke('key')",
    "link.plain = ''",
    "cookies.unprotect_text(cookie, True)",
    "jorveuk.none",
]


def run(*command, **more):
    return subprocess.run(
        command, stdout=subprocess.PIPE, stderr=subprocess.STDOUT, universal_newlines=True, **more
    )


def readme():
    with open(os.path.join(support.CLIENT, "README.md"), encoding="utf-8") as it:
        return it.read()


class Readme(unittest.TestCase):
    def test_the_small_program(self):
        program = re.search(r"```python\n(.*?)```", readme(), re.S)[1]
        wanted = re.search(r"It prints.*?```\n(.*?)```", readme(), re.S)[1]
        self.assertNotRegex(program, "base64|tick|0x|byte|struct|encode")
        program = program.replace('"./dp_server"', repr(support.PROGRAM))
        told = subprocess.run(
            [sys.executable, "-c", program],
            stdout=subprocess.PIPE,
            universal_newlines=True,
            env={**os.environ, "PYTHONPATH": SOURCES},
        )
        dateless = [re.sub(r"\d{4}-\d\d-\d\d", "DATE", text) for text in (told.stdout, wanted)]
        self.assertEqual(dateless[0], dateless[1])
        self.assertEqual(told.returncode, 0)

    def test_each_exception_that_it_names_is_there(self):
        for name in re.findall(r"`([A-Z][a-z]+[A-Z]?\w*)`", readme()):
            if name not in ("ValueError", "TypeError", "None"):
                self.assertIn(name, jorveuk.__all__)


@unittest.skipIf(shutil.which("mypy") is None, "there is no mypy")
class Types(unittest.TestCase):
    def checked(self, text):
        with tempfile.TemporaryDirectory() as folder:
            path = os.path.join(folder, "program.py")
            with open(path, "w") as it:
                it.write(text)
            cache = os.path.join(folder, "cache")
            command = ["mypy", "--strict", "--no-error-summary", "--cache-dir", cache, path]
            return run(*command, cwd=folder, env={**os.environ, "MYPYPATH": SOURCES}).stdout

    def test_the_package(self):
        with tempfile.TemporaryDirectory() as cache:
            told = run("mypy", "--strict", "--cache-dir", cache, os.path.join(SOURCES, "jorveuk"))
        self.assertEqual((told.returncode, told.stdout[:7]), (0, "Success"), told.stdout)

    def test_what_a_program_may_say(self):
        self.assertEqual(self.checked(RIGHT), "")

    def test_what_a_program_may_not_say(self):
        """Each line that is wrong is told, and no other."""
        text = "import jorveuk\n" + RIGHT + "".join(f"    {line}\n" for line in WRONG)
        told = {int(line) for line in re.findall(r"program\.py:(\d+): error", self.checked(text))}
        first = text.count("\n") - len(WRONG) + 1
        self.assertEqual(told, set(range(first, first + len(WRONG))))


class Installation(unittest.TestCase):
    def test_it_installs_without_a_network(self):
        with tempfile.TemporaryDirectory() as folder:
            made = run(sys.executable, "-m", "venv", folder)
            if made.returncode != 0:
                self.skipTest("python -m venv makes none here")
            python = os.path.join(folder, "bin", "python")
            told = run(python, "-m", "pip", "--version", cwd=folder).stdout
            numbers = re.match(r"pip (\d+)\.(\d+)", told)
            pip = (int(numbers[1]), int(numbers[2])) if numbers else (0, 0)
            if pip < (20, 0):
                self.skipTest("pip here knows no backend that stands beside a package")
            ways = [[], ["--no-build-isolation", "--force-reinstall"]]
            # Before, it made editable only what has a setup.py.
            ways += [["--editable"]] if pip >= (21, 3) else []
            for more in ways:
                with self.subTest(more):
                    command = [python, "-m", "pip", "install", "--no-index", *more, support.CLIENT]
                    told = run(*command, cwd=folder)
                    self.assertEqual(told.returncode, 0, told.stdout)
                    text = "import jorveuk; print(jorveuk.__version__)"
                    told = run(python, "-c", text, cwd=folder)
                    self.assertEqual(told.stdout, f"{jorveuk.__version__}\n")
            listed = run(python, "-m", "pip", "show", "jorveuk", cwd=folder).stdout
            self.assertIn(f"Version: {jorveuk.__version__}\n", listed)
            self.assertIn("License: MIT\n", listed)

    def test_the_wheel_has_the_whole_package(self):
        sys.path.insert(0, os.path.join(support.CLIENT, "build"))
        import wheels
        import zipfile

        with tempfile.TemporaryDirectory() as folder:
            path = os.path.join(folder, wheels.build_wheel(folder))
            with zipfile.ZipFile(path) as wheel:
                names = set(wheel.namelist())
            sources = os.path.join(SOURCES, "jorveuk")
            files = {f"jorveuk/{name}" for name in os.listdir(sources) if name != "__pycache__"}
            self.assertLessEqual(files, names)
            self.assertEqual(wheels.build_sdist(folder), f"jorveuk-{jorveuk.__version__}.tar.gz")


if __name__ == "__main__":
    unittest.main()
