"""Builds the wheel and the source archive with cargo and the standard library alone, so `pip install` needs no network. One wheel serves CPython
3.10 and later (abi3). The crate is in `rust`, in a source archive, or else beside this folder."""

import base64
import csv
import hashlib
import io
import os
import pathlib
import shutil
import subprocess
import sysconfig
import tarfile
import tempfile
import zipfile

HERE = pathlib.Path(__file__).resolve().parent
RUST = HERE / "rust" if (HERE / "rust").exists() else HERE.parent / "rust"
NAME, VERSION = "hashbag", "0.1.13"
META = f"""\
Metadata-Version: 2.1
Name: {NAME}
Version: {VERSION}
Summary: A counted multiset of any hashable objects, with the calls of collections.Counter, over a proved bag
License: MIT OR Apache-2.0
Requires-Python: >=3.10
"""


def _sources():
    """The files that the module is built of, by their paths in a source archive."""
    own = [HERE / name for name in ("Cargo.toml", "build.rs", "pyproject.toml", "backend.py")]
    own += [path for folder in ("src", NAME) for path in (HERE / folder).iterdir() if path.suffix in (".rs", ".py", ".pyi", ".typed")]
    crate = [RUST / name for name in ("Cargo.toml", "LICENSE-MIT", "LICENSE-APACHE")] + list((RUST / "src").rglob("*.rs"))
    files = {path.relative_to(HERE).as_posix(): path for path in own}
    files.update({"rust/" + path.relative_to(RUST).as_posix(): path for path in crate})
    return dict(sorted(files.items()))


def _compiled():
    """The compiled module. It is built in a folder of its own, so nothing is written beside the sources."""
    cargo = shutil.which("cargo")
    if cargo is None:
        raise RuntimeError("building hashbag takes cargo, of Rust 1.88 or later")
    with tempfile.TemporaryDirectory() as scratch:
        for name, path in _sources().items():
            to = pathlib.Path(scratch, "python", name) if not name.startswith("rust/") else pathlib.Path(scratch, name)
            to.parent.mkdir(parents=True, exist_ok=True)
            shutil.copy(path, to)
        target = pathlib.Path(os.environ.get("CARGO_TARGET_DIR", pathlib.Path(scratch, "target")))
        command = [cargo, "build", "--release", "--offline", "--quiet", "--target-dir", str(target)]
        subprocess.run(command, cwd=pathlib.Path(scratch, "python"), check=True)
        for name in ("lib_hashbag.so", "lib_hashbag.dylib", "_hashbag.dll"):
            if (target / "release" / name).exists():
                return (target / "release" / name).read_bytes()
    raise RuntimeError("cargo built no library")


def _tag():
    return "cp310-abi3-" + sysconfig.get_platform().replace("-", "_").replace(".", "_")


def build_wheel(wheel_directory, config_settings=None, metadata_directory=None):
    info = f"{NAME}-{VERSION}.dist-info"
    files = {name: path.read_bytes() for name, path in _sources().items() if name.startswith(NAME + "/")}
    files[f"{NAME}/_hashbag.pyd" if os.name == "nt" else f"{NAME}/_hashbag.abi3.so"] = _compiled()
    files[f"{info}/METADATA"] = META.encode()
    files[f"{info}/WHEEL"] = f"Wheel-Version: 1.0\nGenerator: backend.py\nRoot-Is-Purelib: false\nTag: {_tag()}\n".encode()
    for name in ("LICENSE-MIT", "LICENSE-APACHE"):
        files[f"{info}/{name}"] = (RUST / name).read_bytes()
    record = io.StringIO()
    rows = csv.writer(record, lineterminator="\n")
    for name, data in files.items():
        rows.writerow([name, "sha256=" + base64.urlsafe_b64encode(hashlib.sha256(data).digest()).decode().rstrip("="), len(data)])
    rows.writerow([f"{info}/RECORD", "", ""])
    files[f"{info}/RECORD"] = record.getvalue().encode()
    wheel = f"{NAME}-{VERSION}-{_tag()}.whl"
    with zipfile.ZipFile(pathlib.Path(wheel_directory, wheel), "w", zipfile.ZIP_DEFLATED) as out:
        for name, data in files.items():
            entry = zipfile.ZipInfo(name, (1980, 1, 1, 0, 0, 0))
            entry.external_attr, entry.compress_type = 0o644 << 16, zipfile.ZIP_DEFLATED
            out.writestr(entry, data)
    return wheel


def build_sdist(sdist_directory, config_settings=None):
    name = f"{NAME}-{VERSION}"
    files = {path: file.read_bytes() for path, file in _sources().items()} | {"PKG-INFO": META.encode()}
    with tarfile.open(pathlib.Path(sdist_directory, name + ".tar.gz"), "w:gz", format=tarfile.PAX_FORMAT) as out:
        for path, data in files.items():
            entry = tarfile.TarInfo(f"{name}/{path}")
            entry.size = len(data)
            out.addfile(entry, io.BytesIO(data))
    return name + ".tar.gz"
