"""What the tests beside the gate are run on: the program, as the gate has built it, and the library for C, of which the
gate proves the crate and writes no archive: it is compiled here over the libraries that the gate has left."""
import os
import subprocess

from running import kit

LIBRARY = "jc_c"


def make(tally):
    """Builds what is not there, and returns the environment that names it."""
    top = os.getcwd()
    found = {
        "JCACHE_PROGRAM": f"{top}/crates/jcache/out/jcache",
        "JCACHE_ARCHIVE": f"{top}/crates/{LIBRARY}/out/lib{LIBRARY}.a",
        "JCACHE_HEAP": f"{kit.folder()}/c/liblibc_c.a",
        "JCACHE_SHARED": f"{top}/crates/{LIBRARY}/out/libjcache.so",
    }
    if not is_fresh(found["JCACHE_SHARED"]):
        tally.check("the library for C is built", lacking() or archive(found["JCACHE_ARCHIVE"]) or shared(found))
    return {name: path for name, path in found.items() if os.path.exists(path)}


def is_fresh(path):
    """Whether what was built is there, and no older than the libraries and the sources that it is made of."""
    sources = [rlib(library) for library in kit.below(LIBRARY)]
    sources += [f"{folder}/{name}" for folder, _, names in os.walk(f"crates/{LIBRARY}/src") for name in names]
    return os.path.exists(path) and all(os.path.exists(it) and os.path.getmtime(it) <= os.path.getmtime(path) for it in sources)


def lacking():
    """Which libraries the gate has not left, if any."""
    names = " ".join(library for library in kit.crates() if library in kit.below(LIBRARY) and not os.path.exists(rlib(library)))
    return f"the gate has not built {names}: run ./test" if names else None


def archive(path):
    """Compiles the archive, and returns why it can't, if it can't."""
    os.makedirs(os.path.dirname(path), exist_ok=True)
    words = [f"{kit.folder()}/bin/rattle", "build", "--crate-name", LIBRARY, "src/lib.rt", "--crate-type", "staticlib"]
    for library in ["std", *kit.crates()[LIBRARY]]:
        words += ["--extern", f"{library}={rlib(library)}"]
    words += ["-L", f"dependency={kit.folder()}/rlibs"]
    for library in sorted(kit.below(LIBRARY)):
        words += ["-L", f"dependency={os.path.dirname(rlib(library))}"]
    words += ["--antt-project", f"{kit.folder()}/rattle/logic/antt-project.json"]
    words += ["--logic-built", f"{kit.folder()}/logic_built", "--toolchain", f"{kit.folder()}/toolchain", "-o", path]
    ran = subprocess.run(words, cwd=f"crates/{LIBRARY}", stdout=subprocess.PIPE, stderr=subprocess.STDOUT, text=True)
    return ran.stdout[-2000:] if ran.returncode else None


def rlib(library):
    own = os.path.abspath(f"crates/{library}/out/rlib/{library}.rlib")
    return own if library in kit.crates() else f"{kit.folder()}/rlibs/{library}.rlib"


def shared(found):
    """Links the shared object, which shows the header's functions alone."""
    words = ["gcc", "-shared", "-o", found["JCACHE_SHARED"], "-Wl,--whole-archive", found["JCACHE_ARCHIVE"]]
    words += ["-Wl,--no-whole-archive", found["JCACHE_HEAP"], "-Wl,--version-script=bindings/exports"]
    ran = subprocess.run(words, stdout=subprocess.PIPE, stderr=subprocess.STDOUT, text=True)
    return ran.stdout[-2000:] if ran.returncode else None
