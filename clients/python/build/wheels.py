"""Builds the package's wheel and its source archive, with the standard library alone (PEP 517, PEP 660).

The version stands in src/jorveuk/__init__.py, and what else is told of the package in METADATA here and
in pyproject.toml.
"""

import base64
import hashlib
import io
import os
import re
import tarfile
import zipfile

TOP = os.path.dirname(os.path.dirname(os.path.abspath(__file__)))
SOURCES = os.path.join(TOP, "src")
NAME = "jorveuk"
# The earliest date of an archive's file, so that equal sources give equal archives.
DATE = (1980, 1, 1, 0, 0, 0)

METADATA = """\
Metadata-Version: 2.1
Name: {name}
Version: {version}
Summary: Protects cookies, tickets and links of a web application with a Jorveuk key ring
License: MIT
Classifier: Intended Audience :: Developers
Classifier: License :: OSI Approved :: MIT License
Classifier: Operating System :: POSIX
Classifier: Programming Language :: Python :: 3
Classifier: Typing :: Typed
Requires-Python: >=3.8
Description-Content-Type: text/markdown

{readme}"""

WHEEL = """\
Wheel-Version: 1.0
Generator: jorveuk
Root-Is-Purelib: true
Tag: py3-none-any
"""


def read(*path):
    with open(os.path.join(TOP, *path), "rb") as it:
        return it.read()


def version():
    text = read("src", NAME, "__init__.py").decode()
    return re.search(r'^__version__ = "([^"]+)"$', text, re.M)[1]


def metadata():
    return METADATA.format(name=NAME, version=version(), readme=read("README.md").decode()).encode()


def package():
    """The names and bytes of the package's files."""
    folder = os.path.join(SOURCES, NAME)
    names = [name for name in sorted(os.listdir(folder)) if name.endswith((".py", "py.typed"))]
    return {f"{NAME}/{name}": read("src", NAME, name) for name in names}


def write_wheel(folder, files):
    """Writes the wheel of these files, and gives its name."""
    info = f"{NAME}-{version()}.dist-info"
    license_file = {f"{info}/LICENSE": read("LICENSE")}
    files = {**files, f"{info}/METADATA": metadata(), f"{info}/WHEEL": WHEEL.encode(), **license_file}
    record = ""
    for name, data in files.items():
        digest = base64.urlsafe_b64encode(hashlib.sha256(data).digest()).rstrip(b"=").decode()
        record += f"{name},sha256={digest},{len(data)}\n"
    files[f"{info}/RECORD"] = f"{record}{info}/RECORD,,\n".encode()
    wheel = f"{NAME}-{version()}-py3-none-any.whl"
    with zipfile.ZipFile(os.path.join(folder, wheel), "w", zipfile.ZIP_DEFLATED) as archive:
        for name, data in files.items():
            entry = zipfile.ZipInfo(name, DATE)
            entry.compress_type = zipfile.ZIP_DEFLATED
            entry.external_attr = 0o644 << 16
            archive.writestr(entry, data)
    return wheel


def build_wheel(wheel_directory, config_settings=None, metadata_directory=None):
    return write_wheel(wheel_directory, package())


def build_editable(wheel_directory, config_settings=None, metadata_directory=None):
    """A wheel that leads to the sources where they stand."""
    return write_wheel(wheel_directory, {f"{NAME}.pth": f"{SOURCES}\n".encode()})


def build_sdist(sdist_directory, config_settings=None):
    base = f"{NAME}-{version()}"
    names = ["LICENSE", "README.md", "pyproject.toml", "build/wheels.py"]
    files = {name: read(*name.split("/")) for name in names}
    files.update({f"src/{name}": data for name, data in package().items()})
    files["PKG-INFO"] = metadata()
    with tarfile.open(os.path.join(sdist_directory, f"{base}.tar.gz"), "w:gz") as archive:
        for name, data in files.items():
            entry = tarfile.TarInfo(f"{base}/{name}")
            entry.size = len(data)
            archive.addfile(entry, io.BytesIO(data))
    return f"{base}.tar.gz"
