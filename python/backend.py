"""Builds the wheel of the package, and its source archive, with the standard library alone (the interface is that of PEP 517 and PEP 660)."""
import base64
import hashlib
import io
import pathlib
import re
import tarfile
import zipfile

HERE = pathlib.Path(__file__).resolve().parent
PROJECT = dict(re.findall(r'^([\w-]+) = "(.*)"$', (HERE / "pyproject.toml").read_text(), re.M))
STEM = f"{PROJECT['name']}-{PROJECT['version']}"
METADATA = f"""\
Metadata-Version: 2.1
Name: {PROJECT["name"]}
Version: {PROJECT["version"]}
Summary: {PROJECT["description"]}
Requires-Python: {PROJECT["requires-python"]}
License: MIT
Provides-Extra: arrays
Requires-Dist: numpy>=1.20; extra == "arrays"
"""
WHEEL = "Wheel-Version: 1.0\nGenerator: backend.py\nRoot-Is-Purelib: true\nTag: py3-none-any\n"


def sources() -> dict:
    """The files of the package, by their paths in a wheel."""
    paths = sorted((HERE / PROJECT["name"]).iterdir())
    return {f"{path.parent.name}/{path.name}": path.read_bytes() for path in paths if path.suffix == ".py" or path.name == "py.typed"}


def write_wheel(folder: str, files: dict) -> str:
    """Writes a wheel of these files, with what describes it, and gives its name."""
    files = files | {f"{STEM}.dist-info/METADATA": METADATA.encode(), f"{STEM}.dist-info/WHEEL": WHEEL.encode()}
    lines = []
    for name, data in files.items():
        digest = base64.urlsafe_b64encode(hashlib.sha256(data).digest()).rstrip(b"=").decode()
        lines.append(f"{name},sha256={digest},{len(data)}\n")
    record = f"{STEM}.dist-info/RECORD"
    files = files | {record: "".join([*lines, f"{record},,\n"]).encode()}
    wheel = f"{STEM}-py3-none-any.whl"
    with zipfile.ZipFile(pathlib.Path(folder, wheel), "w", zipfile.ZIP_DEFLATED) as archive:
        for name, data in files.items():
            archive.writestr(name, data)
    return wheel


def build_wheel(wheel_directory, config_settings=None, metadata_directory=None):
    return write_wheel(wheel_directory, sources())


def build_editable(wheel_directory, config_settings=None, metadata_directory=None):
    return write_wheel(wheel_directory, {f"{PROJECT['name']}.pth": f"{HERE}\n".encode()})


def build_sdist(sdist_directory, config_settings=None):
    name = f"{STEM}.tar.gz"
    with tarfile.open(pathlib.Path(sdist_directory, name), "w:gz") as archive:
        for path in ["pyproject.toml", "backend.py", *sources()]:
            archive.add(HERE / path, f"{STEM}/{path}")
        about = tarfile.TarInfo(f"{STEM}/PKG-INFO")
        about.size = len(METADATA.encode())
        archive.addfile(about, io.BytesIO(METADATA.encode()))
    return name
