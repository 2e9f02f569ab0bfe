"""Makes the wheel of the package hpr, with the library that `c/build` makes inside, for pip: the two calls of a build backend.

The library is taken from the folder HPR_LIB_DIR, or from where `c/build` puts it.
"""
import base64
import hashlib
import os
import pathlib
import zipfile

HERE = pathlib.Path(__file__).resolve().parent
BUILT = HERE.parent / "crates" / "hpr_c" / "out" / "c" / "lib"
VERSION = next(line.split('"')[1] for line in (HERE / "pyproject.toml").read_text().splitlines() if line.startswith("version"))
TAG = "py3-none-linux_x86_64"
INFO = f"hpr-{VERSION}.dist-info"
METADATA = f"""Metadata-Version: 2.1
Name: hpr
Version: {VERSION}
Summary: Integrates changed versions of a program by what they compute
Requires-Python: >=3.8
"""
WHEEL = f"""Wheel-Version: 1.0
Generator: hpr
Root-Is-Purelib: false
Tag: {TAG}
"""


def files():
    """What the wheel has, by its places."""
    library = pathlib.Path(os.environ.get("HPR_LIB_DIR") or BUILT) / "libhpr.so.1"
    if not library.is_file():
        raise SystemExit(f"{library} is missing: c/build makes it, or HPR_LIB_DIR names its folder")
    found = {f"hpr/{path.name}": path.read_bytes() for path in sorted((HERE / "hpr").iterdir()) if path.suffix in {".py", ".typed"}}
    found["hpr/libhpr.so.1"] = library.read_bytes()
    found[f"{INFO}/METADATA"] = METADATA.encode()
    found[f"{INFO}/WHEEL"] = WHEEL.encode()
    return found


def record_line(place, data):
    digest = base64.urlsafe_b64encode(hashlib.sha256(data).digest()).rstrip(b"=").decode()
    return f"{place},sha256={digest},{len(data)}\n"


def build_wheel(wheel_directory, config_settings=None, metadata_directory=None):
    """Writes the wheel into the folder, and returns its name."""
    name = f"hpr-{VERSION}-{TAG}.whl"
    found = files()
    record = "".join(record_line(*file) for file in found.items()) + f"{INFO}/RECORD,,\n"
    with zipfile.ZipFile(pathlib.Path(wheel_directory) / name, "w", zipfile.ZIP_DEFLATED) as wheel:
        for place, data in {**found, f"{INFO}/RECORD": record.encode()}.items():
            wheel.writestr(place, data)
    return name


def build_sdist(sdist_directory, config_settings=None):
    raise SystemExit("there is no source package without the library: make a wheel")
