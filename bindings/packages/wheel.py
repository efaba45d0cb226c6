#!/usr/bin/env python3
"""Makes a Python wheel of the package and the shared library.

    wheel.py LIBRARY SONAME CPU NOTICES FOLDER  writes FOLDER/fe2o3_sasl-VERSION-TAG.whl, and prints its path

The wheel has the package bindings/python/fe2o3_sasl, and in its folder LIBRARY under the name SONAME, which the package
loads in place of the system's. The file NOTICES goes beside the licences. Pages and examples go to share/doc/fe2o3_sasl of
the environment. The tag names the newest version of glibc that a symbol of the library needs. Times and the order of the
files are fixed.
"""
import ast
import base64
import hashlib
import re
import subprocess
import sys
import tempfile
import zipfile
from pathlib import Path

ROOT = Path(__file__).resolve().parents[2]
PACKAGE = ROOT / "bindings" / "python" / "fe2o3_sasl"

METADATA = """\
Metadata-Version: 2.1
Name: fe2o3-sasl
Version: {version}
Summary: SASL authentication with SCRAM for client and server, by a proved library
License: MIT OR Apache-2.0
License-File: LICENSE-APACHE
License-File: LICENSE-MIT
License-File: NOTICES
Classifier: Operating System :: POSIX :: Linux
Classifier: Programming Language :: Python :: 3
Classifier: Typing :: Typed
Requires-Python: >=3.9
Description-Content-Type: text/plain

The processor has to support {cpu}. `import fe2o3_sasl` loads the library of this package, or the one that the
environment variable FE2O3_SASL_LIB names. The package is not proved: it calls the proved library by ctypes.

{doc}
"""

WHEEL = """\
Wheel-Version: 1.0
Generator: fe2o3_sasl
Root-Is-Purelib: false
Tag: {tag}
"""


def modules():
    """The files of the package by their places in the wheel."""
    files = sorted([*PACKAGE.glob("*.py"), PACKAGE / "py.typed"])
    return {f"{PACKAGE.name}/{file.name}": file.read_bytes() for file in files}


def glibc_of(library):
    """The newest version of glibc that a symbol of the library needs."""
    said = subprocess.run(["objdump", "-T", library], capture_output=True, text=True, check=True).stdout
    return max(tuple(map(int, found.split("."))) for found in re.findall(r"GLIBC_([0-9.]+)", said))


def version():
    """The version, as Python writes that of the sources before a release: 0.5.0.dev0 (PEP 440)."""
    text = (ROOT / "bindings" / "rust" / "Cargo.toml").read_text(encoding="utf-8")
    return re.search(r'^version = "(.*)"$', text, re.MULTILINE)[1].replace("-dev", ".dev0")


def written(archive, name, data):
    """Adds a file to the wheel, and returns its line of RECORD."""
    entry = zipfile.ZipInfo(name, (1980, 1, 1, 0, 0, 0))
    entry.create_system, entry.external_attr, entry.compress_type = 3, 0o100644 << 16, zipfile.ZIP_DEFLATED
    archive.writestr(entry, data, compresslevel=9)
    digest = base64.urlsafe_b64encode(hashlib.sha256(data).digest()).rstrip(b"=").decode()
    return f"{name},sha256={digest},{len(data)}\n"


def documents(at):
    """The pages and examples, as they are in a package, below this place of the wheel."""
    with tempfile.TemporaryDirectory() as folder:
        subprocess.run([Path(__file__).with_name("pages.py"), "write", folder], check=True)
        files = sorted(path for path in Path(folder).rglob("*") if path.is_file())
        return {f"{at}/{path.relative_to(folder)}": path.read_bytes() for path in files}


def main():
    if len(sys.argv) != 6:
        sys.exit(__doc__)
    library, soname, cpu, notices, folder = sys.argv[1:]
    major, minor = glibc_of(library)[:2]
    number, tag = version(), f"py3-none-manylinux_{major}_{minor}_x86_64"
    if f'_FILE = "{soname}"' not in (PACKAGE / "_native.py").read_text(encoding="utf-8"):
        sys.exit(f"wheel.py: _native.py does not load {soname}")
    doc = ast.get_docstring(ast.parse((PACKAGE / "__init__.py").read_text(encoding="utf-8")))
    info = f"fe2o3_sasl-{number}.dist-info"
    files = {
        **modules(),
        f"{PACKAGE.name}/{soname}": Path(library).read_bytes(),
        **documents(f"fe2o3_sasl-{number}.data/data/share/doc/fe2o3_sasl"),
        f"{info}/LICENSE-APACHE": (ROOT / "LICENSE-APACHE").read_bytes(),
        f"{info}/LICENSE-MIT": (ROOT / "LICENSE-MIT").read_bytes(),
        f"{info}/NOTICES": Path(notices).read_bytes(),
        f"{info}/METADATA": METADATA.format(version=number, cpu=cpu, doc=doc).encode(),
        f"{info}/WHEEL": WHEEL.format(tag=tag).encode(),
    }
    out = Path(folder) / f"fe2o3_sasl-{number}-{tag}.whl"
    with zipfile.ZipFile(out, "w") as archive:
        record = "".join(written(archive, name, data) for name, data in files.items())
        written(archive, f"{info}/RECORD", (record + f"{info}/RECORD,,\n").encode())
    print(out)


if __name__ == "__main__":
    main()
