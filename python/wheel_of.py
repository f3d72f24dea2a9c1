"""Builds the wheel of the package, by Python's standard library alone, so that `pip install ./python` needs no network."""

import base64
import hashlib
import re
import zipfile
from pathlib import Path

HERE = Path(__file__).resolve().parent
KINDS = (".py", ".typed", ".html", ".css", ".js")
WHEEL = "Wheel-Version: 1.0\nGenerator: icserve\nRoot-Is-Purelib: true\nTag: py3-none-any\n"


def field(name):
    return re.search(rf'(?m)^{name} = "(.*)"$', (HERE / "pyproject.toml").read_text())[1]


def record(name, data):
    digest = base64.urlsafe_b64encode(hashlib.sha256(data).digest()).rstrip(b"=").decode()
    return f"{name},sha256={digest},{len(data)}\n"


def build_wheel(wheel_directory, config_settings=None, metadata_directory=None):
    """Writes the wheel into this folder: its name."""
    name, version = field("name"), field("version")
    about = f"{name}-{version}.dist-info"
    told = f"Metadata-Version: 2.1\nName: {name}\nVersion: {version}\nSummary: {field('description')}\nRequires-Python: {field('requires-python')}\n"
    files = {str(it.relative_to(HERE)): it.read_bytes() for it in sorted(HERE.glob("icserve/**/*.*")) if it.suffix in KINDS}
    files.update({f"{about}/METADATA": told.encode(), f"{about}/WHEEL": WHEEL.encode()})
    records = "".join(record(*it) for it in files.items()) + f"{about}/RECORD,,\n"
    wheel = f"{name}-{version}-py3-none-any.whl"
    with zipfile.ZipFile(Path(wheel_directory) / wheel, "w", zipfile.ZIP_DEFLATED) as archive:
        for path, data in {**files, f"{about}/RECORD": records.encode()}.items():
            # The same sources give the same bytes.
            archive.writestr(zipfile.ZipInfo(path), data)
    return wheel
