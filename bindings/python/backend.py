"""What `pip install` calls (PEP 517): builds the shared library and packs it with the module into a wheel, by Python's own library alone, so that
nothing is fetched."""
from __future__ import annotations

import base64
import hashlib
import pathlib
import re
import subprocess
import sysconfig
import zipfile
from collections.abc import Iterable, Iterator
from typing import Any

HERE = pathlib.Path(__file__).resolve().parent
ROOT = HERE.parents[1]
LIBRARY = ROOT / "target" / "bindings" / "libmorskebab.so"


def _version() -> str:
    number = int(re.search(r"^VERSION = (\d+)$", (HERE / "morskebab" / "_c.py").read_text(), re.MULTILINE)[1])  # type: ignore[index]
    return f"{number // 10000}.{number // 100 % 100}.{number % 100}"


def _project(field: str) -> str:
    """A text of pyproject.toml, which no Python before 3.11 can read by itself."""
    return re.search(rf'^{field} = "(.*)"$', (HERE / "pyproject.toml").read_text(), re.MULTILINE)[1]  # type: ignore[index]


def _about() -> dict[str, bytes]:
    """The files of the wheel's folder of facts, but for the list of files."""
    lines = ["Metadata-Version: 2.1", "Name: morskebab", f"Version: {_version()}", f"Summary: {_project('description')}",
             f"Requires-Python: {_project('requires-python')}"]
    wheel = ["Wheel-Version: 1.0", "Generator: morskebab", "Root-Is-Purelib: false", f"Tag: {_tag()}"]
    command = ["[console_scripts]", f"morskebab = {_project('morskebab')}"]
    return {name: "\n".join([*held, ""]).encode() for name, held in (("METADATA", lines), ("WHEEL", wheel), ("entry_points.txt", command))}


def _tag() -> str:
    return "py3-none-" + re.sub(r"[-.]", "_", sysconfig.get_platform())


def _files() -> Iterator[tuple[str, bytes]]:
    for path in sorted((HERE / "morskebab").rglob("*")):
        if path.is_file() and path.suffix in (".py", ".typed"):
            yield str(path.relative_to(HERE)), path.read_bytes()
    yield "morskebab/libmorskebab.so", LIBRARY.read_bytes()


def _folder() -> str:
    return f"morskebab-{_version()}.dist-info"


def prepare_metadata_for_build_wheel(metadata_directory: str, config_settings: Any = None) -> str:
    folder = pathlib.Path(metadata_directory) / _folder()
    folder.mkdir(parents=True, exist_ok=True)
    for name, held in _about().items():
        (folder / name).write_bytes(held)
    return _folder()


def build_wheel(wheel_directory: str, config_settings: Any = None, metadata_directory: str | None = None) -> str:
    subprocess.run([str(ROOT / "bindings" / "shared")], check=True)
    return _packed(wheel_directory, _files())


def build_editable(wheel_directory: str, config_settings: Any = None, metadata_directory: str | None = None) -> str:
    """For `pip install -e`: the module is read where it stands, and the library is that of the target folder."""
    subprocess.run([str(ROOT / "bindings" / "shared")], check=True)
    return _packed(wheel_directory, [("morskebab.pth", f"{HERE}\n".encode())])


prepare_metadata_for_build_editable = prepare_metadata_for_build_wheel


def _packed(wheel_directory: str, files: Iterable[tuple[str, bytes]]) -> str:
    """The wheel's name; its list of files has each with its sum."""
    name, record = f"morskebab-{_version()}-{_tag()}.whl", []
    with zipfile.ZipFile(pathlib.Path(wheel_directory) / name, "w", zipfile.ZIP_DEFLATED) as wheel:
        for path, held in [*files, *((f"{_folder()}/{path}", held) for path, held in _about().items())]:
            wheel.writestr(path, held)
            sum_ = base64.urlsafe_b64encode(hashlib.sha256(held).digest()).rstrip(b"=").decode()
            record.append(f"{path},sha256={sum_},{len(held)}\n")
        record.append(f"{_folder()}/RECORD,,\n")
        wheel.writestr(f"{_folder()}/RECORD", "".join(record))
    return name
