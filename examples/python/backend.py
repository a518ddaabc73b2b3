"""Builds the wheel that pip installs, by the standard library alone. It holds the module and libprep.so: that of the
folder that PREP_LIB_DIR names, or of the package in which this folder stands. Without either it holds the module only,
which then looks for the library where the system does."""

import base64
import hashlib
import os
import pathlib
import re
import zipfile
from typing import Dict, Optional

HERE = pathlib.Path(__file__).resolve().parent


def project(field: str) -> str:
    """What pyproject.toml says of the project."""
    found = re.search(rf'^{field} = "(.*)"$', (HERE / "pyproject.toml").read_text(), re.M)
    if not found:
        raise ValueError(f"pyproject.toml has no {field}")
    return found.group(1)


def library() -> Optional[pathlib.Path]:
    """The library that goes into the wheel, if there is one."""
    named = os.environ.get("PREP_LIB_DIR")
    file = (pathlib.Path(named) if named else HERE.parent.parent / "lib") / "libprep.so"
    if named and not file.exists():
        raise FileNotFoundError(f"PREP_LIB_DIR is {named}, but there is no libprep.so in it")
    return file if file.exists() else None


def contents(about: str, tag: str) -> Dict[str, bytes]:
    """The files of the wheel but for their list, by their names in it."""
    files = {f"prep/{name}": (HERE / "prep" / name).read_bytes() for name in ("__init__.py", "py.typed")}
    shared = library()
    if shared:
        files["prep/libprep.so"] = shared.read_bytes()
    metadata = f"Metadata-Version: 2.1\nName: {project('name')}\nVersion: {project('version')}\n"
    metadata += f"Summary: {project('description')}\nRequires-Python: {project('requires-python')}\n"
    files[f"{about}/METADATA"] = metadata.encode()
    pure = "false" if shared else "true"
    files[f"{about}/WHEEL"] = f"Wheel-Version: 1.0\nGenerator: prep\nRoot-Is-Purelib: {pure}\nTag: {tag}\n".encode()
    return files


def record(name: str, data: bytes) -> str:
    """A line of the wheel's list: name, sum and size."""
    sum64 = base64.urlsafe_b64encode(hashlib.sha256(data).digest()).rstrip(b"=").decode()
    return f"{name},sha256={sum64},{len(data)}\n"


def build_wheel(wheel_directory, config_settings=None, metadata_directory=None) -> str:
    """Writes the wheel to a folder and returns its name, as PEP 517 has it."""
    name = f"{project('name')}-{project('version')}"
    about, tag = f"{name}.dist-info", "py3-none-linux_x86_64" if library() else "py3-none-any"
    files = contents(about, tag)
    listed = "".join(record(file, data) for file, data in files.items())
    files[f"{about}/RECORD"] = (listed + f"{about}/RECORD,,\n").encode()
    with zipfile.ZipFile(os.path.join(wheel_directory, f"{name}-{tag}.whl"), "w", zipfile.ZIP_DEFLATED) as wheel:
        for file, data in files.items():
            wheel.writestr(zipfile.ZipInfo(file), data, zipfile.ZIP_DEFLATED)
    return f"{name}-{tag}.whl"
