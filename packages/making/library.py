"""The library for C as it is installed: one archive, and one shared object with the header's functions alone."""
import os

from making.commands import output

PKG_CONFIG = """\
prefix=/usr
libdir=${{prefix}}/lib/x86_64-linux-gnu
includedir=${{prefix}}/include

Name: jcache
Description: A manager of named caches with the behaviour of JSR 107
Version: {version}
Libs: -L${{libdir}} -ljcache
Cflags: -I${{includedir}}
"""


def soname(version):
    """The name under which programs seek the shared object: what is declared stays while the first number stays."""
    return f"libjcache.so.{version.split('.')[0]}"


def join(archives, path):
    """Writes one archive with the members of all."""
    folder = os.path.dirname(path)
    lines = [f"CREATE {os.path.basename(path)}"]
    for number, archive in enumerate(archives):
        os.symlink(os.path.abspath(archive), f"{folder}/joined{number}.a")
        lines.append(f"ADDLIB joined{number}.a")
    script = f"{folder}/join.mri"
    with open(script, "w", encoding="utf-8") as file:
        file.write("\n".join([*lines, "SAVE", "END", ""]))
    output(["sh", "-c", "ar -M < join.mri"], folder)


def link(archives, path, version):
    """Links the shared object; a symbol that is nowhere defined fails."""
    words = ["gcc", "-shared", "-o", path, f"-Wl,-soname,{soname(version)}", "-Wl,-z,defs"]
    words += ["-Wl,--version-script=bindings/exports", "-Wl,--whole-archive", *archives, "-Wl,--no-whole-archive"]
    output(words)
