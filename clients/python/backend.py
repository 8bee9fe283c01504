"""Builds the wheel and the source archive (PEP 517), of the standard library alone, so that neither needs a network.

The same sources give the same bytes: names are sorted, and each file has one and the same date and mode."""
import base64
import gzip
import hashlib
import io
import pathlib
import re
import tarfile
import zipfile
from typing import Any, Dict, List, Optional

HERE = pathlib.Path(__file__).resolve().parent
DATE = (2020, 1, 1, 0, 0, 0)
SECONDS = 1577836800

# What the tool that builds may say; nothing of it is looked at.
Settings = Optional[Dict[str, Any]]

# What of the package's folder belongs to it: modules, and the files of the page.
SUFFIXES = (".py", ".typed", ".html", ".css", ".js", ".svg", ".json")


def _field(name: str, text: str) -> str:
    found = re.search(rf'^{name} = "(.*)"$', text, re.M)
    if found is None:
        raise ValueError(f"no line says what {name} is")
    return found[1]


PROJECT = (HERE / "pyproject.toml").read_text(encoding="utf-8")
NAME, SUMMARY = _field("name", PROJECT), _field("description", PROJECT)
VERSION = _field("__version__", (HERE / NAME / "__init__.py").read_text(encoding="utf-8"))
LICENSES = ("LICENSE-APACHE", "LICENSE-MIT")
METADATA = "".join(
    f"{line}\n"
    for line in (
        "Metadata-Version: 2.1",
        f"Name: {NAME}",
        f"Version: {VERSION}",
        f"Summary: {SUMMARY}",
        f"Requires-Python: {_field('requires-python', PROJECT)}",
        f"License: {_field('license', PROJECT)}",
        *(f"License-File: {name}" for name in LICENSES),
        *(f"Classifier: {it}" for it in re.findall(r'^    "(.* :: .*)",$', PROJECT, re.M)),
        "Description-Content-Type: text/markdown",
        "",
        (HERE / "README.md").read_text(encoding="utf-8").rstrip(),
    )
)
WHEEL = "Wheel-Version: 1.0\nGenerator: vadungsil-backend\nRoot-Is-Purelib: true\nTag: py3-none-any\n"
INFO = f"{NAME}-{VERSION}.dist-info"


def _sources() -> Dict[str, bytes]:
    """The package's files by their names in an archive."""
    return {
        f"{NAME}/{path.relative_to(HERE / NAME)}": path.read_bytes()
        for path in sorted((HERE / NAME).rglob("*"))
        if path.suffix in SUFFIXES
    }


def _licenses() -> Dict[str, bytes]:
    """The licences: beside this file in a source archive, else at the top of the tree."""
    return {
        name: next(it for it in (HERE / name, HERE.parent.parent / name) if it.exists()).read_bytes()
        for name in LICENSES
    }


def _described() -> Dict[str, bytes]:
    return {
        **{f"{INFO}/{name}": data for name, data in _licenses().items()},
        f"{INFO}/METADATA": METADATA.encode(),
        f"{INFO}/WHEEL": WHEEL.encode(),
        f"{INFO}/entry_points.txt": f"[console_scripts]\n{NAME} = {NAME}.__main__:main\n".encode(),
    }


def get_requires_for_build_wheel(config_settings: Settings = None) -> List[str]:
    return []


def get_requires_for_build_sdist(config_settings: Settings = None) -> List[str]:
    return []


def prepare_metadata_for_build_wheel(metadata_directory: str, config_settings: Settings = None) -> str:
    for name, data in _described().items():
        path = pathlib.Path(metadata_directory) / name
        path.parent.mkdir(exist_ok=True)
        path.write_bytes(data)
    return INFO


def build_wheel(
    wheel_directory: str, config_settings: Settings = None, metadata_directory: Optional[str] = None
) -> str:
    files = {**_sources(), **_described()}
    lines = []
    for name, data in files.items():
        digest = base64.urlsafe_b64encode(hashlib.sha256(data).digest()).rstrip(b"=").decode()
        lines.append(f"{name},sha256={digest},{len(data)}\n")
    files[f"{INFO}/RECORD"] = "".join([*lines, f"{INFO}/RECORD,,\n"]).encode()
    wheel = f"{NAME}-{VERSION}-py3-none-any.whl"
    with zipfile.ZipFile(pathlib.Path(wheel_directory) / wheel, "w", zipfile.ZIP_DEFLATED) as archive:
        for name, data in files.items():
            info = zipfile.ZipInfo(name, DATE)
            info.external_attr, info.compress_type = 0o644 << 16, zipfile.ZIP_DEFLATED
            archive.writestr(info, data)
    return wheel


def build_sdist(sdist_directory: str, config_settings: Settings = None) -> str:
    top = f"{NAME}-{VERSION}"
    files = {
        **_sources(),
        **_licenses(),
        "PKG-INFO": METADATA.encode(),
        **{name: (HERE / name).read_bytes() for name in ("pyproject.toml", "backend.py", "README.md")},
    }
    packed = io.BytesIO()
    with tarfile.open(fileobj=packed, mode="w", format=tarfile.PAX_FORMAT) as archive:
        for name, data in sorted(files.items()):
            info = tarfile.TarInfo(f"{top}/{name}")
            info.size, info.mtime, info.mode = len(data), SECONDS, 0o644
            archive.addfile(info, io.BytesIO(data))
    with open(pathlib.Path(sdist_directory) / f"{top}.tar.gz", "wb") as out, gzip.GzipFile(
        "", "wb", 9, out, SECONDS
    ) as zipped:
        zipped.write(packed.getvalue())
    return f"{top}.tar.gz"
