"""Packages for Debian, of files that are laid out in a folder as they lie below the root."""
import gzip
import os
import re
import shutil
import textwrap
from dataclasses import dataclass
from typing import Tuple

from making import library
from making.commands import output

ARCHITECTURE = "amd64"
LIBRARIES = "usr/lib/x86_64-linux-gnu"
MODULES = "usr/lib/redis/modules"
LEAVE = "Nobody has leave to pass this package on: it is for the machines of who built it."


@dataclass(frozen=True)
class Package:
    """What a package says of itself: its section, what it is in a line and at length, and further fields."""

    section: str
    short: str
    long: str
    fields: Tuple[str, ...] = ()


PACKAGES = {
    "jcache": Package(
        "utils",
        "Runs scripts of calls on isolated caches",
        "The program jcache plays scripts of cache calls as JSR 107 has them, and reports what each cache answered.",
    ),
    "libjcache-dev": Package(
        "libdevel",
        "Named caches with the behaviour of JSR 107, for C and C++",
        "Archive, shared object, headers and pkg-config file of the library.",
    ),
    "redis-jcache": Package(
        "database",
        "Named caches with the behaviour of JSR 107, as keys of Redis",
        f"The server loads the module by `loadmodule /{MODULES}/jcache.so` in its configuration.",
        ("Recommends: redis-server (>= 5:7.0)",),
    ),
}


def put(source, folder, name, mode=0o644):
    """Copies a file to its place below the folder, with these permissions."""
    path = f"{folder}/{name}"
    os.makedirs(os.path.dirname(path), exist_ok=True)
    shutil.copyfile(source, path)
    os.chmod(path, mode)
    return path


def write(text, folder, name, is_compressed=False):
    """Writes a text to its place below the folder; compressed, it does not tell the moment at which that was done."""
    path = f"{folder}/{name}"
    os.makedirs(os.path.dirname(path), exist_ok=True)
    with open(path, "wb") as file:
        file.write(gzip.compress(text.encode(), mtime=0) if is_compressed else text.encode())


def read(name):
    with open(name, encoding="utf-8") as file:
        return file.read()


def lay_out_program(folder, program, checkout):
    put(program, folder, "usr/bin/jcache", 0o755)
    manual = read("packages/jcache.1").replace("@VERSION@", checkout.version)
    write(manual, folder, "usr/share/man/man1/jcache.1.gz", is_compressed=True)
    put("packages/completions/jcache.bash", folder, "usr/share/bash-completion/completions/jcache")
    put("packages/completions/_jcache", folder, "usr/share/zsh/vendor-completions/_jcache")
    return [f"{folder}/usr/bin/jcache"]


def lay_out_library(folder, archive, shared, checkout):
    soname = library.soname(checkout.version)
    real = f"libjcache.so.{checkout.version}"
    put(archive, folder, f"{LIBRARIES}/libjcache.a")
    put(shared, folder, f"{LIBRARIES}/{real}")
    for link in (soname, "libjcache.so"):
        os.symlink(real, f"{folder}/{LIBRARIES}/{link}")
    put("include/jcache.h", folder, "usr/include/jcache.h")
    put("bindings/cpp/jcache.hpp", folder, "usr/include/jcache.hpp")
    for name in sorted(os.listdir("bindings/cpp/jcache")):
        put(f"bindings/cpp/jcache/{name}", folder, f"usr/include/jcache/{name}")
    write(library.PKG_CONFIG.format(version=checkout.version), folder, f"{LIBRARIES}/pkgconfig/jcache.pc")
    write("activate-noawait ldconfig\n", folder, "DEBIAN/triggers")
    return [f"{folder}/{LIBRARIES}/{real}"]


def lay_out_module(folder, module):
    return [put(module, folder, f"{MODULES}/jcache.so", 0o755)]


def depends(work, binaries):
    """The packages that binaries want, by their symbols."""
    write("Source: jcache\n\nPackage: jcache\nArchitecture: any\n", work, "debian/control")
    printed = output(["dpkg-shlibdeps", "-O", *[f"-e{binary}" for binary in binaries]], work)
    return re.search(r"shlibs:Depends=(.*)", printed)[1]


def control(name, folder, wanted, version):
    package = PACKAGES[name]
    sizes = [os.path.getsize(f"{at}/{file}") for at, _, files in os.walk(folder) for file in files if not os.path.islink(f"{at}/{file}")]
    return "\n".join([
        f"Package: {name}",
        f"Version: {version}",
        f"Architecture: {ARCHITECTURE}",
        "Maintainer: who built it <root@localhost>",
        f"Installed-Size: {sum(-(-size // 1024) for size in sizes)}",
        f"Depends: {wanted}",
        *package.fields,
        f"Section: {package.section}",
        "Priority: optional",
        f"Description: {package.short}",
        *textwrap.wrap(f"{package.long} {LEAVE}", 79, initial_indent=" ", subsequent_indent=" "),
        "",
    ])


def settle(folder, seconds):
    """Gives folders and files the time of the commit, and folders their permissions."""
    for at, folders, files in os.walk(folder, topdown=False):
        for name in [*folders, *files]:
            path = f"{at}/{name}"
            if name in folders and not os.path.islink(path):
                os.chmod(path, 0o755)
            os.utime(path, (seconds, seconds), follow_symlinks=False)
    os.chmod(folder, 0o755)
    os.utime(folder, (seconds, seconds))


def pack(name, folder, binaries, work, checkout, into):
    """Writes a package of what lies in the folder."""
    write(f"{read('LICENSE')}\n{LEAVE}\n", folder, f"usr/share/doc/{name}/copyright")
    write(read("CHANGELOG.md"), folder, f"usr/share/doc/{name}/changelog.gz", is_compressed=True)
    write(control(name, folder, depends(work, binaries), checkout.version), folder, "DEBIAN/control")
    settle(folder, checkout.seconds)
    made = f"{into}/{name}_{checkout.version}_{ARCHITECTURE}.deb"
    words = ["env", f"SOURCE_DATE_EPOCH={checkout.seconds}", "dpkg-deb", "--root-owner-group", "-Zxz", "--threads-max=1"]
    output([*words, "--build", folder, made])
