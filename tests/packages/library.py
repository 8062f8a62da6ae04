"""The library as its package and the wheel lay it out: names and symbols of the shared object, programs over each."""
import os
import re
import subprocess
import zipfile

from installing import TOP, first_output, write_files
from pages import blocks, page_of

LIBRARIES = "usr/lib/x86_64-linux-gnu"
DECLARED = re.compile(r"^(?:jc_status|uint32_t) (jc_\w+)\(", re.M)


def output(*words):
    ran = subprocess.run(words, capture_output=True, text=True, errors="replace", check=False)
    return ran.stdout if not ran.returncode else f"status {ran.returncode}: {ran.stderr[-1000:]}"


def unlike(wanted, found):
    return None if wanted == found else f"wanted {wanted}, found {found}"


def soname_fault(root, version):
    """The object's name has the version's first number, and a link of that name leads to it, as the one for linking does."""
    folder, wanted = f"{root}/{LIBRARIES}", f"libjcache.so.{version.split('.')[0]}"
    name = re.search(r"SONAME +(\S+)", output("objdump", "-p", f"{folder}/libjcache.so"))
    links = {os.readlink(f"{folder}/{link}") for link in ("libjcache.so", wanted)}
    return unlike((wanted, {f"libjcache.so.{version}"}), (name and name[1], links))


def symbols_fault(root):
    """The shared object shows the header's functions alone."""
    with open(f"{root}/usr/include/jcache.h", encoding="utf-8") as file:
        declared = sorted(DECLARED.findall(file.read()))
    shown = [line.split()[2] for line in output("nm", "-D", "--defined-only", f"{root}/{LIBRARIES}/libjcache.so").splitlines()]
    return unlike(declared, sorted(shown))


def archive_fault(root, work):
    """A program over the archive prints what its page shows, and needs no shared object of ours."""
    page = page_of(TOP, "docs/C.md")
    write_files(page, work)
    words = ["gcc", "-O2", f"-I{root}/usr/include", f"{work}/greet.c", f"-L{root}/{LIBRARIES}", "-l:libjcache.a", "-o", f"{work}/greet"]
    built = output(*words)
    needs = "libjcache" in output("objdump", "-p", f"{work}/greet")
    return built or unlike((first_output(page), False), (output(f"{work}/greet").rstrip("\n"), needs))


def wheel_fault(wheel, work):
    """Without the extension, which is for one Python alone, a program finds the library inside the wheel."""
    page = page_of(TOP, "docs/PYTHON.md")
    write_files(page, work)
    with zipfile.ZipFile(wheel) as packed:
        packed.extractall(work, [name for name in packed.namelist() if "/_native." not in name])
    program = next(block.said for block in blocks(page) if block.kind == "file")
    found = output("env", "-i", f"PATH={os.environ['PATH']}", f"HOME={work}", f"PYTHONPATH={work}", "python3", f"{work}/{program}")
    return unlike(first_output(page), found.rstrip("\n"))
