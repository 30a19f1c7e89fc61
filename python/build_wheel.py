"""Builds the package's wheel with the standard library alone, so that `pip install ./python` needs no network. From a
checkout whose proved program fits its sources and this machine, the wheel has that program."""
from __future__ import annotations

import base64
import hashlib
import re
import subprocess
import zipfile
from pathlib import Path
from typing import Dict, Optional, Tuple

HERE = Path(__file__).resolve().parent
NAME = "pathsum"
Files = Dict[str, Tuple[bytes, int]]
"""What a wheel has: bytes and mode by path."""


def _version() -> str:
    found = re.search(r'^__version__ = "(.*)"', (HERE / NAME / "__init__.py").read_text(), re.MULTILINE)
    assert found
    return found[1]


def _program() -> Optional[Path]:
    finder = HERE.parent / "tools" / "find-program"
    if not finder.is_file():
        return None
    found = subprocess.run([str(finder)], stdout=subprocess.PIPE, text=True, check=False)
    return Path(found.stdout.strip()) if found.returncode == 0 else None


def _metadata(tag: str) -> Files:
    version = _version()
    folder = f"{NAME}-{version}.dist-info"
    about = f"Metadata-Version: 2.1\nName: {NAME}\nVersion: {version}\nRequires-Python: >=3.9\n"
    about += "Summary: Whether two quantum circuits are one linear map, decided exactly\n"
    wheel = f"Wheel-Version: 1.0\nGenerator: {NAME}\nRoot-Is-Purelib: {str(tag.endswith('any')).lower()}\nTag: {tag}\n"
    return {
        f"{folder}/METADATA": (about.encode(), 0o644),
        f"{folder}/WHEEL": (wheel.encode(), 0o644),
        f"{folder}/entry_points.txt": (f"[console_scripts]\n{NAME} = {NAME}.cli:entry\n".encode(), 0o644),
    }


def _write(folder: str, files: Files, tag: str) -> str:
    files = {**files, **_metadata(tag)}
    name = f"{NAME}-{_version()}-{tag}.whl"
    record = ""
    with zipfile.ZipFile(Path(folder) / name, "w", zipfile.ZIP_DEFLATED) as wheel:
        for path, (data, mode) in files.items():
            info = zipfile.ZipInfo(path)
            info.external_attr = (0o100000 | mode) << 16
            info.compress_type = zipfile.ZIP_DEFLATED
            wheel.writestr(info, data)
            digest = base64.urlsafe_b64encode(hashlib.sha256(data).digest()).rstrip(b"=").decode()
            record += f"{path},sha256={digest},{len(data)}\n"
        of_record = f"{NAME}-{_version()}.dist-info/RECORD"
        wheel.writestr(of_record, f"{record}{of_record},,\n")
    return name


def build_wheel(wheel_directory, config_settings=None, metadata_directory=None):  # type: ignore[no-untyped-def]
    """The wheel; called by pip."""
    files: Files = {}
    for path in sorted((HERE / NAME).iterdir()):
        if path.suffix == ".py" or path.name == "py.typed":
            files[f"{NAME}/{path.name}"] = (path.read_bytes(), 0o644)
    program = _program()
    if program is not None:
        files[f"{NAME}/program/{NAME}"] = (program.read_bytes(), 0o755)
    return _write(wheel_directory, files, "py3-none-linux_x86_64" if program else "py3-none-any")


def build_editable(wheel_directory, config_settings=None, metadata_directory=None):  # type: ignore[no-untyped-def]
    """A wheel that points to this folder; called by `pip install -e`."""
    return _write(wheel_directory, {f"__editable__.{NAME}.pth": (f"{HERE}\n".encode(), 0o644)}, "py3-none-any")


def build_sdist(sdist_directory, config_settings=None):  # type: ignore[no-untyped-def]
    """Not made: a source distribution would lack the program. Install from a checkout."""
    raise RuntimeError("pathsum is installed from a checkout, as a wheel")
