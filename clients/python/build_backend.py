"""Builds what `pip install` needs, with the standard library only: a bench without a network can install from the folder."""
import base64
import hashlib
import io
import os
import re
import tarfile
import zipfile
from typing import Dict, List, Optional

HERE = os.path.dirname(os.path.abspath(__file__))
SUMMARY = "Behaviours in Python, judged by the component table of ttrun serve"
CLASSIFIERS = ("Framework :: Pytest", "Operating System :: POSIX", "Programming Language :: Python :: 3", "Topic :: Software Development :: Testing",
               "Typing :: Typed")
WHEEL = "Wheel-Version: 1.0\nGenerator: filskeam\nRoot-Is-Purelib: true\nTag: py3-none-any\n"
ENTRY_POINTS = "[pytest11]\nfilskeam = pytest_filskeam\n"
# When each file of a wheel was written, so that the same sources give the same bytes.
DAY = (1980, 1, 1, 0, 0, 0)
# What pip may pass; nothing of it is used.
Settings = Optional[Dict[str, object]]


def text_of(path: str) -> str:
    with open(os.path.join(HERE, path), encoding="utf-8") as file:
        return file.read()


def named() -> str:
    """The name of the package with its version, which is that of the program."""
    (version,) = re.findall('__version__ = "([^"]+)"', text_of("filskeam/__init__.py"))
    return f"filskeam-{version}"


def metadata() -> str:
    lines = ["Metadata-Version: 2.1", "Name: filskeam", f"Version: {named().partition('-')[2]}", f"Summary: {SUMMARY}",
             "Author: Filskeam maintainers", "Requires-Python: >=3.8", *(f"Classifier: {it}" for it in CLASSIFIERS),
             "Description-Content-Type: text/markdown", "", text_of("README.md")]
    return "\n".join(lines)


def sources() -> Dict[str, str]:
    names: List[str] = ["pytest_filskeam.py", *(f"filskeam/{it}" for it in sorted(os.listdir(os.path.join(HERE, "filskeam"))))]
    return {name: text_of(name) for name in names if name.endswith((".py", ".typed"))}


def write_wheel(folder: str, files: Dict[str, str]) -> str:
    """Writes a wheel of these files, and what says what they are; its name."""
    info = f"{named()}.dist-info"
    files = {**files, f"{info}/METADATA": metadata(), f"{info}/WHEEL": WHEEL, f"{info}/entry_points.txt": ENTRY_POINTS}
    sums = {name: base64.urlsafe_b64encode(hashlib.sha256(text.encode()).digest()).rstrip(b"=").decode() for name, text in files.items()}
    record = [f"{name},sha256={sums[name]},{len(text.encode())}\n" for name, text in files.items()]
    name = f"{named()}-py3-none-any.whl"
    with zipfile.ZipFile(os.path.join(folder, name), "w", zipfile.ZIP_DEFLATED) as wheel:
        for path, text in {**files, f"{info}/RECORD": "".join(record) + f"{info}/RECORD,,\n"}.items():
            entry = zipfile.ZipInfo(path, DAY)
            entry.external_attr = 0o644 << 16
            wheel.writestr(entry, text, zipfile.ZIP_DEFLATED)
    return name


def build_wheel(wheel_directory: str, config_settings: Settings = None, metadata_directory: Optional[str] = None) -> str:
    """What pip calls to install: writes the wheel, and returns its name."""
    return write_wheel(wheel_directory, sources())


def build_editable(wheel_directory: str, config_settings: Settings = None, metadata_directory: Optional[str] = None) -> str:
    """The same for `pip install -e`: the wheel has only the path of this folder."""
    return write_wheel(wheel_directory, {"filskeam.pth": f"{HERE}\n"})


def build_sdist(sdist_directory: str, config_settings: Settings = None) -> str:
    """Writes the archive of the sources, of which the wheel can be built, and returns its name."""
    files = {**sources(), **{it: text_of(it) for it in ("build_backend.py", "pyproject.toml", "README.md")}, "PKG-INFO": metadata()}
    name = f"{named()}.tar.gz"
    with tarfile.open(os.path.join(sdist_directory, name), "w:gz", format=tarfile.PAX_FORMAT) as archive:
        for path, text in files.items():
            member = tarfile.TarInfo(f"{named()}/{path}")
            member.size = len(text.encode())
            archive.addfile(member, io.BytesIO(text.encode()))
    return name
