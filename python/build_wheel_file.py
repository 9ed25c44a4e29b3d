"""Builds the wheel of the package with the standard library alone: the hooks that pip calls, named in pyproject.toml."""

import base64
import hashlib
import os
import tarfile
import tomllib
import zipfile
from collections.abc import Iterator
from pathlib import Path

HERE = Path(__file__).resolve().parent
PACKAGE = "stateflow"


def project() -> dict[str, str]:
    """What pyproject.toml says of the project."""
    with open(HERE / "pyproject.toml", "rb") as file:
        table: dict[str, str] = tomllib.load(file)["project"]
    return table


def metadata() -> str:
    about = project()
    lines = [
        "Metadata-Version: 2.1",
        f"Name: {about['name']}",
        f"Version: {about['version']}",
        f"Summary: {about['description']}",
        f"Requires-Python: {about['requires-python']}",
    ]
    return "\n".join(lines) + "\n"


def sources() -> Iterator[Path]:
    """The files of the package, from the folder of pyproject.toml."""
    for path in sorted((HERE / PACKAGE).rglob("*")):
        if path.is_file() and "__pycache__" not in path.parts:
            yield path.relative_to(HERE)


def record_line(name: str, content: bytes) -> str:
    digest = base64.urlsafe_b64encode(hashlib.sha256(content).digest()).rstrip(b"=").decode()
    return f"{name},sha256={digest},{len(content)}\n"


def write_wheel(folder: str, contents: dict[str, bytes]) -> str:
    """Writes a wheel with these files, and gives its name."""
    about = project()
    stem = f"{about['name']}-{about['version']}"
    head = f"{stem}.dist-info"
    tag = "py3-none-any"
    files = {
        **contents,
        f"{head}/METADATA": metadata().encode(),
        f"{head}/WHEEL": f"Wheel-Version: 1.0\nGenerator: {PACKAGE}\nRoot-Is-Purelib: true\nTag: {tag}\n".encode(),
    }
    record = "".join(record_line(name, content) for name, content in files.items()) + f"{head}/RECORD,,\n"
    wheel = f"{stem}-{tag}.whl"
    with zipfile.ZipFile(os.path.join(folder, wheel), "w", zipfile.ZIP_DEFLATED) as archive:
        for name, content in {**files, f"{head}/RECORD": record.encode()}.items():
            archive.writestr(name, content)
    return wheel


def build_wheel(wheel_directory: str, config_settings: object = None, metadata_directory: str | None = None) -> str:
    return write_wheel(wheel_directory, {path.as_posix(): (HERE / path).read_bytes() for path in sources()})


def build_editable(wheel_directory: str, config_settings: object = None, metadata_directory: str | None = None) -> str:
    return write_wheel(wheel_directory, {f"{PACKAGE}.pth": f"{HERE}\n".encode()})


def build_sdist(sdist_directory: str, config_settings: object = None) -> str:
    about = project()
    stem = f"{about['name']}-{about['version']}"
    with tarfile.open(os.path.join(sdist_directory, f"{stem}.tar.gz"), "w:gz") as archive:
        for path in [Path("pyproject.toml"), Path(__file__).relative_to(HERE), *sources()]:
            archive.add(HERE / path, f"{stem}/{path.as_posix()}")
    return f"{stem}.tar.gz"
