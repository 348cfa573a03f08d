"""Packs the package as a wheel (PEP 427), for pip (PEP 517). Plain Python files need
no more than this, and setuptools before 70.1 can't make a wheel without a further
package."""

import base64
import hashlib
import pathlib
import re
import zipfile

HERE = pathlib.Path(__file__).resolve().parent


def build_wheel(wheel_directory, config_settings=None, metadata_directory=None):
    package = sorted(HERE.glob("yachayniq/*.py")) + [HERE / "yachayniq" / "py.typed"]
    files = {f"yachayniq/{file.name}": file.read_bytes() for file in package}
    return _wheel(wheel_directory, files)


def build_editable(wheel_directory, config_settings=None, metadata_directory=None):
    """For pip install -e: the package stays where it is (PEP 660)."""
    return _wheel(wheel_directory, {"yachayniq.pth": f"{HERE}\n".encode()})


def _wheel(folder, files):
    project = _project()
    name = f"{project['name']}-{project['version']}"
    info = f"{name}.dist-info"
    files[f"{info}/METADATA"] = (
        f"Metadata-Version: 2.1\nName: {project['name']}\nVersion: {project['version']}\n"
        f"Summary: {project['description']}\nRequires-Python: {project['requires-python']}\n"
    ).encode()
    files[f"{info}/WHEEL"] = (
        b"Wheel-Version: 1.0\nGenerator: wheel_backend\n"
        b"Root-Is-Purelib: true\nTag: py3-none-any\n"
    )
    rows = [f"{path},sha256={_digest(data)},{len(data)}\n" for path, data in files.items()]
    files[f"{info}/RECORD"] = "".join([*rows, f"{info}/RECORD,,\n"]).encode()
    wheel = f"{name}-py3-none-any.whl"
    with zipfile.ZipFile(pathlib.Path(folder) / wheel, "w", zipfile.ZIP_DEFLATED) as archive:
        for path, data in files.items():
            archive.writestr(path, data)
    return wheel


def _project():
    """The fields of pyproject.toml that are plain text; Python 3.10 has no tomllib."""
    text = (HERE / "pyproject.toml").read_text()
    return dict(re.findall(r'^([\w-]+) = "(.*)"$', text, re.MULTILINE))


def _digest(data):
    return base64.urlsafe_b64encode(hashlib.sha256(data).digest()).rstrip(b"=").decode()
