"""Makes the wheel of the package, with the released shared library in it: no compiler, and nothing that would have to be fetched."""
import base64
import gzip
import hashlib
import os
import zipfile

HERE = os.path.dirname(os.path.abspath(__file__))
RELEASED = os.path.join(HERE, "..", "..", "release", "libluffaknife.so.gz")
NAME, VERSION = "luffaknife", "0.2.0"
TAG = "py3-none-manylinux_2_34_x86_64"
# Of all files, so that one wheel is like another.
TIME = (1980, 1, 1, 0, 0, 0)


def shared_library():
    """The released library, or what lies here where the package is a copy."""
    beside = os.path.join(HERE, NAME, "libluffaknife.so")
    if os.path.exists(beside):
        with open(beside, "rb") as it:
            return it.read()
    with gzip.open(RELEASED) as it:
        return it.read()


def files():
    """What the package has, by its names."""
    made = {}
    for name in sorted(os.listdir(os.path.join(HERE, NAME))):
        if name.endswith(".py") or name == "py.typed":
            with open(os.path.join(HERE, NAME, name), "rb") as it:
                made[f"{NAME}/{name}"] = it.read()
    made[f"{NAME}/libluffaknife.so"] = shared_library()
    return made


def metadata():
    return f"Metadata-Version: 2.1\nName: {NAME}\nVersion: {VERSION}\nRequires-Python: >=3.9\nLicense: MIT OR Apache-2.0\n".encode()


def record_of(made):
    """The digest and the size of each file, as the format of wheels has them."""
    lines = []
    for name, data in made.items():
        digest = base64.urlsafe_b64encode(hashlib.sha256(data).digest()).rstrip(b"=").decode()
        lines.append(f"{name},sha256={digest},{len(data)}")
    return lines


def build_wheel(wheel_directory, config_settings=None, metadata_directory=None):
    info = f"{NAME}-{VERSION}.dist-info"
    made = files()
    made[f"{info}/METADATA"] = metadata()
    made[f"{info}/WHEEL"] = f"Wheel-Version: 1.0\nGenerator: {NAME}\nRoot-Is-Purelib: false\nTag: {TAG}\n".encode()
    made[f"{info}/RECORD"] = "\n".join([*record_of(made), f"{info}/RECORD,,", ""]).encode()
    name = f"{NAME}-{VERSION}-{TAG}.whl"
    with zipfile.ZipFile(os.path.join(wheel_directory, name), "w", zipfile.ZIP_DEFLATED) as wheel:
        for path, data in made.items():
            wheel.writestr(zipfile.ZipInfo(path, TIME), data, zipfile.ZIP_DEFLATED)
    return name


def build_sdist(sdist_directory, config_settings=None):
    raise NotImplementedError("the package is installed from a copy of the repository: pip install ./lib/python")
