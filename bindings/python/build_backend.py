"""Makes the wheel of the package: it compiles src/core against Python's stable ABI and links libtambyulo.a into it.

It is the build backend that pyproject.toml names, so `pip install` calls it, and a script: build_backend.py FOLDER. It
needs a C compiler (`CC`, or gcc), Python's headers, and what `make lib` leaves in the repository's folder `out`;
`TAMBYULO_LIB_DIR` names another folder that has libtambyulo.a.
"""

import base64
import hashlib
import os
import pathlib
import re
import subprocess
import sys
import sysconfig
import tempfile
import zipfile

HERE = pathlib.Path(__file__).resolve().parent
NAME = "tambyulo"
# The Python that the stable ABI of the extension begins with.
PYTHON = "cp310"
MODULE = "_core.abi3.so"
# The earliest time that a zip can tell: files of a wheel have this, so that equal sources make an equal wheel.
BEGINNING = (1980, 1, 1, 0, 0, 0)


class UnsupportedOperation(Exception):
    """What this backend does not make."""


def fail(text):
    raise SystemExit(f"{NAME}: {text}")


def project():
    """The fields of pyproject.toml that the wheel's metadata has, as they stand there one a line."""
    text = (HERE / "pyproject.toml").read_text(encoding="utf-8").partition("[project]")[2]
    return dict(re.findall(r'^([\w-]+) = "(.*)"$', text, re.MULTILINE))


def library():
    folder = pathlib.Path(os.environ.get("TAMBYULO_LIB_DIR") or HERE.parents[1] / "out")
    file = folder / "libtambyulo.a"
    if not file.is_file():
        fail(f"there is no {file}: `make lib` at the top of the repository makes it")
    return file


def headers():
    folder = pathlib.Path(sysconfig.get_path("include"))
    if not (folder / "Python.h").is_file():
        fail(f"there is no {folder / 'Python.h'}: Python's headers are missing (Debian: python3-dev)")
    return folder


def compiled(folder):
    """Compiles the extension into the folder."""
    made = pathlib.Path(folder) / MODULE
    sources = sorted((HERE / "src" / "core").glob("*.c"))
    flags = ["-std=c11", "-O2", "-fPIC", "-shared", "-pthread", "-fvisibility=hidden", "-Wall", "-Wextra"]
    includes = [f"-I{HERE.parent / 'c'}", f"-I{headers()}"]
    # (the library's own names stay inside)
    words = [os.environ.get("CC") or "gcc", *flags, *includes, *sources, library(), "-Wl,--exclude-libs,ALL", "-o", made]
    try:
        subprocess.run([str(it) for it in words], check=True)
    except FileNotFoundError:
        fail(f"there is no C compiler {words[0]} (Debian: gcc)")
    except subprocess.CalledProcessError as fault:
        fail(f"the extension was not compiled: {words[0]} ended with status {fault.returncode}")
    return made


def metadata(fields):
    lines = [
        "Metadata-Version: 2.1",
        f"Name: {fields['name']}",
        f"Version: {fields['version']}",
        f"Summary: {fields['description']}",
        f"Requires-Python: {fields['requires-python']}",
        "Description-Content-Type: text/markdown",
    ]
    return "\n".join(lines) + "\n\n" + (HERE / fields["readme"]).read_text(encoding="utf-8")


def build_wheel(wheel_directory, config_settings=None, metadata_directory=None):
    """Makes the wheel in the folder, and returns its name."""
    fields = project()
    platform = re.sub(r"[-.]", "_", sysconfig.get_platform())
    tag = f"{PYTHON}-abi3-{platform}"
    wheel = f"Wheel-Version: 1.0\nGenerator: {NAME}\nRoot-Is-Purelib: false\nTag: {tag}\n"
    info = f"{NAME}-{fields['version']}.dist-info"
    with tempfile.TemporaryDirectory() as folder:
        parts = {f"{NAME}/{it.name}": it.read_bytes() for it in sorted((HERE / "src" / NAME).glob("*.py"))}
        parts[f"{NAME}/{MODULE}"] = compiled(folder).read_bytes()
    parts[f"{info}/METADATA"] = metadata(fields).encode()
    parts[f"{info}/WHEEL"] = wheel.encode()
    record = "".join(f"{name},sha256={digest(it)},{len(it)}\n" for name, it in parts.items())
    parts[f"{info}/RECORD"] = (record + f"{info}/RECORD,,\n").encode()
    name = f"{NAME}-{fields['version']}-{tag}.whl"
    with zipfile.ZipFile(pathlib.Path(wheel_directory) / name, "w", zipfile.ZIP_DEFLATED) as packed:
        for path, data in parts.items():
            entry = zipfile.ZipInfo(path, BEGINNING)
            entry.compress_type = zipfile.ZIP_DEFLATED
            entry.external_attr = (0o755 if path.endswith(".so") else 0o644) << 16
            packed.writestr(entry, data)
    return name


def digest(data):
    return base64.urlsafe_b64encode(hashlib.sha256(data).digest()).rstrip(b"=").decode()


def build_sdist(sdist_directory, config_settings=None):
    raise UnsupportedOperation("the library is built from the repository, so there is no archive of sources")


if __name__ == "__main__":
    if len(sys.argv) != 2:
        fail("usage: build_backend.py FOLDER")
    print(build_wheel(sys.argv[1]))
