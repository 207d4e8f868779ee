"""Builds the wheel of this package with the standard library alone, so that `pip install ./python` needs no network.

It reads the few lines of pyproject.toml that it needs by itself, since Python 3.9 reads no TOML.
"""

import base64
import hashlib
import os
import re
import zipfile

TOP = os.path.dirname(os.path.dirname(os.path.abspath(__file__)))
PACKAGE = "jambulskeg"
WHEEL = "Wheel-Version: 1.0\nGenerator: wheel_backend\nRoot-Is-Purelib: true\nTag: py3-none-any\n"


def read(name):
    """The text of a file of this folder."""
    with open(os.path.join(TOP, name), encoding="utf-8") as file:
        return file.read()


def field(name):
    """A text of pyproject.toml."""
    found = re.search(rf'^{name} = "(.*)"$', read("pyproject.toml"), re.MULTILINE)
    if found is None:
        raise SystemExit(f"pyproject.toml has no text '{name}'")
    return found.group(1)


def metadata():
    """What the wheel says of itself."""
    return (
        f"Metadata-Version: 2.1\nName: {field('name')}\nVersion: {field('version')}\n"
        f"Summary: {field('description')}\nRequires-Python: {field('requires-python')}\n"
        f"Description-Content-Type: text/markdown\n\n{read('README.md')}"
    )


def sources():
    """The files of the package, by their paths in the wheel."""
    for folder, names, files in os.walk(os.path.join(TOP, PACKAGE)):
        names[:] = sorted(name for name in names if name[0] not in "._")
        for file in sorted(files):
            yield os.path.relpath(os.path.join(folder, file), TOP).replace(os.sep, "/")


def write_wheel(folder, texts):
    """Writes a wheel of these texts and its record; its name."""
    info = f"{PACKAGE}-{field('version')}.dist-info"
    texts = {**texts, f"{info}/METADATA": metadata(), f"{info}/WHEEL": WHEEL}
    record = "".join(f"{path},sha256={digest(text)},{len(text.encode())}\n" for path, text in texts.items())
    name = f"{PACKAGE}-{field('version')}-py3-none-any.whl"
    with zipfile.ZipFile(os.path.join(folder, name), "w", zipfile.ZIP_DEFLATED) as wheel:
        for path, text in {**texts, f"{info}/RECORD": f"{record}{info}/RECORD,,\n"}.items():
            wheel.writestr(path, text)
    return name


def digest(text):
    """The checksum of a text as a record has it."""
    return base64.urlsafe_b64encode(hashlib.sha256(text.encode()).digest()).rstrip(b"=").decode()


def build_wheel(wheel_directory, config_settings=None, metadata_directory=None):
    """The hook that pip calls for an install."""
    return write_wheel(wheel_directory, {path: read(path) for path in sources()})


def build_editable(wheel_directory, config_settings=None, metadata_directory=None):
    """The hook that pip calls for an install of the folder as it is (`pip install -e`)."""
    return write_wheel(wheel_directory, {f"{PACKAGE}.pth": f"{TOP}\n"})
