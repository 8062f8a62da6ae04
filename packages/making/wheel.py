"""A wheel for Python with the library inside."""
import base64
import hashlib
import os
import sysconfig
import time
import zipfile

from making.commands import output
from making.debian import LEAVE

FOLDER = "bindings/python/jcache"
TAG = "py3-none-linux_x86_64"
METADATA = """\
Metadata-Version: 2.1
Name: jcache
Version: {version}
Summary: Named caches with the behaviour of JSR 107, each isolated from all others
Requires-Python: >=3.8

{leave}
"""
WHEEL = f"""\
Wheel-Version: 1.0
Generator: packages/build
Root-Is-Purelib: false
Tag: {TAG}
"""


def modules():
    """The binding's files by their names in the wheel."""
    names = sorted(name for name in os.listdir(FOLDER) if name.endswith((".py", ".pyi", ".typed")))
    return {f"jcache/{name}": f"{FOLDER}/{name}" for name in names}


def extensions(archives, work):
    """The extension for the Python that runs this, where its headers are there. Any other Python takes the library."""
    source, headers = f"{FOLDER}/_native.c", sysconfig.get_path("include")
    if not os.path.isfile(f"{headers}/Python.h"):
        return {}
    name = f"_native{sysconfig.get_config_var('EXT_SUFFIX')}"
    words = ["gcc", "-O2", "-fPIC", "-shared", "-Iinclude", f"-I{headers}", source, *archives, "-Wl,--exclude-libs,ALL"]
    output([*words, "-o", f"{work}/{name}"])
    return {f"jcache/{name}": f"{work}/{name}"}


def read(path):
    with open(path, "rb") as file:
        return file.read()


def recorded(files, name):
    """The list of all files with their checksums that a wheel has to have."""
    lines = []
    for path, data in files.items():
        digest = base64.urlsafe_b64encode(hashlib.sha256(data).digest()).rstrip(b"=").decode()
        lines.append(f"{path},sha256={digest},{len(data)}\n")
    return "".join([*lines, f"{name},,\n"]).encode()


def build(shared, archives, checkout, work, into):
    information = f"jcache-{checkout.version}.dist-info"
    files = {name: read(path) for name, path in [*modules().items(), *extensions(archives, work).items()]}
    files["jcache/libjcache.so"] = read(shared)
    files[f"{information}/METADATA"] = METADATA.format(version=checkout.version, leave=LEAVE).encode()
    files[f"{information}/WHEEL"] = WHEEL.encode()
    files[f"{information}/LICENSE"] = read("LICENSE")
    files[f"{information}/RECORD"] = recorded(files, f"{information}/RECORD")
    moment = time.gmtime(checkout.seconds)[:6]
    with zipfile.ZipFile(f"{into}/jcache-{checkout.version}-{TAG}.whl", "w", zipfile.ZIP_DEFLATED) as wheel:
        for name, data in files.items():
            entry = zipfile.ZipInfo(name, moment)
            entry.compress_type, entry.external_attr = zipfile.ZIP_DEFLATED, 0o100644 << 16
            wheel.writestr(entry, data)
