"""Makes the wheel of this package, for pip. With a backend of its own the package installs without a network.

The wheel has both libraries inside if the variable QLOCK_WHEEL_LIBRARIES names a folder with libqlock.so and libqlock_plan.so.
"""
import base64
import hashlib
import os
import re
import zipfile

HERE = os.path.dirname(os.path.abspath(__file__))
LIBRARIES = ("libqlock.so", "libqlock_plan.so")


def project(name):
    """Returns a value of pyproject.toml, which is a text."""
    with open(os.path.join(HERE, "pyproject.toml"), encoding="utf-8") as file:
        return re.search(rf'^{name} = "(.*)"$', file.read(), re.MULTILINE).group(1)


def get_requires_for_build_wheel(config_settings=None):
    return []


def read(path):
    """Returns the bytes of a file."""
    with open(path, "rb") as file:
        return file.read()


def package_files():
    """Returns the files of the package, by their names in the wheel, and the tag of the wheel."""
    names = [it for it in sorted(os.listdir(os.path.join(HERE, "qlock"))) if it.endswith((".py", ".typed"))]
    files = {"qlock/" + it: read(os.path.join(HERE, "qlock", it)) for it in names}
    folder = os.environ.get("QLOCK_WHEEL_LIBRARIES")
    if not folder:
        return files, "py3-none-any"
    files.update({"qlock/" + it: read(os.path.join(folder, it)) for it in LIBRARIES})
    return files, "py3-none-linux_x86_64"


def build_wheel(wheel_directory, config_settings=None, metadata_directory=None):
    version = project("version")
    info = f"qlock-{version}.dist-info"
    files, tag = package_files()
    summary = project("description")
    python = project("requires-python")
    files[f"{info}/METADATA"] = (
        f"Metadata-Version: 2.1\nName: qlock\nVersion: {version}\nSummary: {summary}\nRequires-Python: {python}\n"
    ).encode()
    pure = "true" if tag.endswith("any") else "false"
    files[f"{info}/WHEEL"] = f"Wheel-Version: 1.0\nGenerator: qlock\nRoot-Is-Purelib: {pure}\nTag: {tag}\n".encode()
    record = "".join(
        "{},sha256={},{}\n".format(
            name, base64.urlsafe_b64encode(hashlib.sha256(data).digest()).rstrip(b"=").decode(), len(data)
        )
        for name, data in files.items()
    )
    files[f"{info}/RECORD"] = (record + f"{info}/RECORD,,\n").encode()
    wheel = f"qlock-{version}-{tag}.whl"
    with zipfile.ZipFile(os.path.join(wheel_directory, wheel), "w", zipfile.ZIP_DEFLATED) as archive:
        for name, data in files.items():
            archive.writestr(name, data)
    return wheel
