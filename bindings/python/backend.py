"""Makes the wheel of the package toastlagoon (PEP 517), with the shared library in it.

The library is the file that TOASTLAGOON_SO names, or that of the package that this folder lies in (lib), or that of the repository
(dist/lib, made by `./package`).
"""

import base64
import hashlib
import os
import zipfile
from pathlib import Path

VERSION = "0.12.3"
TAG = "py3-none-linux_x86_64"
INFO = f"toastlagoon-{VERSION}.dist-info"
HERE = Path(__file__).resolve().parent

METADATA = f"""Metadata-Version: 2.1
Name: toastlagoon
Version: {VERSION}
Summary: The register, board and track of one aircraft, proved in Rattle, for Python
Requires-Python: >=3.9
"""

WHEEL = f"""Wheel-Version: 1.0
Generator: toastlagoon
Root-Is-Purelib: false
Tag: {TAG}
"""


def shared_library():
    named = os.environ.get("TOASTLAGOON_SO")
    top = HERE.parent.parent
    places = [Path(named)] if named else [top / "lib/libtoastlagoon.so", top / "dist/lib/libtoastlagoon.so"]
    for place in places:
        if place.is_file():
            return place
    raise FileNotFoundError(f"no shared library at {', '.join(map(str, places))} (run './package', or name one in TOASTLAGOON_SO)")


def build_wheel(wheel_directory, config_settings=None, metadata_directory=None):
    files = {f"toastlagoon/{path.name}": path.read_bytes() for path in sorted((HERE / "toastlagoon").iterdir()) if path.is_file()}
    files["toastlagoon/libtoastlagoon.so"] = shared_library().read_bytes()
    files[f"{INFO}/METADATA"] = METADATA.encode()
    files[f"{INFO}/WHEEL"] = WHEEL.encode()
    record = ""
    for name, content in files.items():
        digest = base64.urlsafe_b64encode(hashlib.sha256(content).digest()).rstrip(b"=").decode()
        record += f"{name},sha256={digest},{len(content)}\n"
    files[f"{INFO}/RECORD"] = f"{record}{INFO}/RECORD,,\n".encode()
    wheel = f"toastlagoon-{VERSION}-{TAG}.whl"
    with zipfile.ZipFile(Path(wheel_directory) / wheel, "w", zipfile.ZIP_DEFLATED) as archive:
        for name, content in files.items():
            archive.writestr(name, content)
    return wheel


def build_sdist(sdist_directory, config_settings=None):
    raise NotImplementedError("install from the folder, or from a wheel")
