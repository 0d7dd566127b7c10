"""The header in C and in C++, its numbers and those of the crate, and the sample as the README builds
it."""

import os
import re
import shutil
import subprocess

import library
from tally import Missing, same

STRICT = ["-Wall", "-Wextra", "-Wpedantic", "-Wconversion", "-Werror", "-fsyntax-only"]
LANGUAGES = [("gcc", "c99", "c"), ("gcc", "c11", "c"), ("g++", "c++11", "c++"), ("g++", "c++17", "c++")]

# How the README's command begins. tests/vectors/build has just done that, with the same files.
BUILT = "(cd crates/dp_c && rt lib) && "

SAMPLE = [
    "sealed 33 bytes into 112",
    "opened: attack at dawn, by the north gate",
    "altered: refused",
]


def told(*command, **more):
    if shutil.which(command[0]) is None:
        raise Missing(command[0])
    done = subprocess.run(
        command, cwd=str(library.TOP), stdout=subprocess.PIPE, stderr=subprocess.STDOUT,
        universal_newlines=True, **more
    )
    return done.returncode, done.stdout


def languages():
    """The header alone is a file of C and of C++, with warnings as errors; so is the sample in C."""
    for compiler, standard, language in LANGUAGES:
        source = "include/dp_c.h"
        same(told(compiler, f"-std={standard}", "-x", language, *STRICT, source), (0, ""), compiler, standard)
        yield
    same(told("gcc", "-std=c99", "-Iinclude", *STRICT, "samples/seal.c"), (0, ""), "samples/seal.c")
    yield


def numbers():
    """The crate has the names and numbers of the header, and no others."""
    source = (library.TOP / "crates" / "dp_c" / "src" / "answer.rt").read_text()
    crate = {
        int(number): name.lower().replace("_", " ")
        for name, number in re.findall(r"^pub const (\w+): u32 = (\d+);$", source, re.M)
    }
    for number in sorted(set(crate) | set(library.NUMBERS)):
        same(library.NUMBERS.get(number), crate.get(number), number)
        yield


def exports():
    """The header declares each function that the crate exports, and no other."""
    wanted = set()
    for path in sorted((library.TOP / "crates" / "dp_c" / "src").glob("*.rt")):
        wanted |= set(re.findall(r'^pub extern "C" fn (\w+)', path.read_text(), re.M))
    declared = set(re.findall(r"^(?:uint32_t|void) (dp_\w+)\(", library.HEADER.read_text(), re.M))
    same(sorted(declared), sorted(wanted), "functions")
    yield


# The room of a body by its code and the bytes of its text, as the layout of bodies says.
def room(code, count):
    if code > 6:
        return 16 + 12 + count + 16
    return 16 + 16 + (count // 16 + 1) * 16 + (32 if code <= 3 else 64)


def macros():
    """The lengths and rooms are those of the layouts, and the version is that of the program and the package."""
    wanted = {"DP_MATERIAL_BYTES": 64, "DP_MODIFIER_BYTES": 16, "DP_MAX_HEADER_BYTES": 98}
    wanted.update({"DP_SHA256_BYTES": 32, "DP_SHA512_BYTES": 64, "DP_BLOCK_BYTES": 16})
    wanted.update({f"DP_IV_BYTES({code})": 16 if code <= 6 else 12 for code in range(1, 10)})
    for count in (0, 1, 15, 16, 17, 33, 1000000):
        wanted[f"DP_CBC_ROOM({count})"] = (count // 16 + 1) * 16
        wanted[f"DP_GCM_ROOM({count})"] = count + 16
        wanted.update({f"DP_BODY_ROOM({code}, {count})": room(code, count) for code in range(1, 10)})
        wanted[f"!(DP_MAX_BODY_ROOM({count}) < {max(room(code, count) for code in range(1, 10))})"] = 1
    # An array can't have fewer than no elements.
    lines = [f"typedef char at_{at}[({it}) == {value} ? 1 : -1];" for at, (it, value) in enumerate(wanted.items())]
    source = "\n".join(['#include "dp_c.h"', *lines, ""])
    for compiler, standard, language in LANGUAGES:
        command = [compiler, f"-std={standard}", "-x", language, "-Iinclude", *STRICT, "-"]
        same(told(*command, input=source), (0, ""), compiler, standard)
        yield
    header = library.HEADER.read_text()
    version = re.search(r'^#define DP_VERSION "(.*)"$', header, re.M)[1]
    parts = re.findall(r"^#define DP_VERSION_(?:MAJOR|MINOR|PATCH) (\d+)$", header, re.M)
    same(parts, version.split("."), "parts of the version")
    script = (library.TOP / "dp_server").read_text()
    same(re.search(r"^version=(.*)$", script, re.M)[1], version, "version of the script")
    package = (library.TOP / "clients" / "python" / "src" / "jorveuk" / "__init__.py").read_text()
    same(re.search(r'^__version__ = "(.*)"$', package, re.M)[1], version, "version of the package")
    changes = (library.TOP / "CHANGELOG.md").read_text()
    same(re.search(r"^## (\S+?),? ", changes, re.M)[1], version, "version of the changelog")
    yield


def must_use():
    """An answer that isn't looked at is told, in each language."""
    source = '#include "dp_c.h"\nvoid f(void);\nvoid f(void) { uint8_t b[16] = {0}; dp_aes_encrypt(b, 16, b); }\n'
    for compiler, standard, language in LANGUAGES:
        # Only a compiler that goes on to code looks for it.
        strict = [it for it in STRICT if it != "-fsyntax-only"]
        command = [compiler, f"-std={standard}", "-x", language, "-Iinclude", *strict, "-c", "-o", os.devnull, "-"]
        status, printed = told(*command, input=source)
        same((status, "unused-result" in printed), (1, True), compiler, standard)
        yield


def sample():
    """The README's command builds the sample, which seals, opens and is refused. The library is there."""
    if shutil.which("gcc") is None:
        raise Missing("gcc")
    commands = re.findall(r"^    (.*samples/seal\.c.*)$", (library.TOP / "README.md").read_text(), re.M)
    same(len(commands), 1, "commands of the README")
    same(commands[0][: len(BUILT)], BUILT, "what the command begins with")
    status, printed = told("bash", "-c", commands[0][len(BUILT) :])
    same((status, printed.splitlines()[-3:]), (0, SAMPLE), commands[0])
    yield


PARTS = [
    ("header, C and C++", len(LANGUAGES) + 1, languages),
    ("header, numbers", 11, numbers),
    ("header, functions", 1, exports),
    ("header, lengths and version", len(LANGUAGES) + 1, macros),
    ("header, answers to be looked at", len(LANGUAGES), must_use),
    ("samples/seal.c", 1, sample),
]
