"""The programs that are measured: ours, as they are proved, and the peers, built from Debian's packages."""

import os
import shutil
import subprocess
import sys
from functools import cached_property

BENCH = os.path.dirname(os.path.dirname(os.path.abspath(__file__)))
CRATES = os.path.join(os.path.dirname(BENCH), "crates")
COMMANDS = ("cargo", "g++", "java", "javac", "time", "valgrind")
JARS = {
    "libcaffeine-java": ("caffeine.jar",),
    "libehcache-java": ("ehcache.jar",),
    "libjackson2-core-java": ("jackson-core.jar",),
    "libslf4j-java": ("slf4j-api.jar", "slf4j-nop.jar"),
}
CRATE_PACKAGES = ("librust-serde-json-dev", "librust-serde-derive-dev", "librust-dashmap-dev")
SERIAL = "--serial"
PACKAGES = (*JARS, *CRATE_PACKAGES, "libcuckoo-dev")


def version_of(package):
    """The version of an installed package, or nothing."""
    asked = ["dpkg-query", "-W", "-f", "${Version}", package]
    return subprocess.run(asked, capture_output=True, text=True).stdout


def demand():
    """Stops where something is not installed, and says all of it."""
    lacking = [it for it in PACKAGES if not version_of(it)]
    lacking += [it for it in COMMANDS if not shutil.which(it)]
    if lacking:
        sys.exit(f"not installed: {' '.join(lacking)}")


def files_of(package):
    listed = subprocess.run(["dpkg", "-L", package], check=True, capture_output=True, text=True)
    return listed.stdout.splitlines()


def file_of(package, name):
    """The path of a package's file of this name."""
    return next(it for it in files_of(package) if os.path.basename(it) == name)


def build_java(folder):
    """The class path of the peers of the JVM."""
    built = os.path.join(folder, "java")
    path = [file_of(package, name) for package, names in JARS.items() for name in names]
    sources = os.path.join(BENCH, "peers", "java")
    named = [os.path.join(sources, it) for it in os.listdir(sources)]
    subprocess.run(["javac", "-d", built, "-cp", os.pathsep.join(path), *named], check=True)
    return os.pathsep.join([built, *path])


def debian_crates():
    """The words that have cargo take the crates of Debian's packages."""
    registry = os.path.dirname(os.path.dirname(file_of(CRATE_PACKAGES[-1], "Cargo.toml")))
    return ["--config", 'source.crates-io.replace-with="debian"', "--config", f'source.debian.directory="{registry}"']


def build_rust(folder):
    """The folder of the peers in Rust, whose dependencies are those crates that the packages have."""
    built = os.path.join(folder, "rust")
    shutil.copytree(os.path.join(BENCH, "peers", "rust"), built, dirs_exist_ok=True)
    subprocess.run(["cargo", *debian_crates(), "build", "--quiet", "--release", "--offline"], cwd=built, check=True)
    return os.path.join(built, "target", "release")


def build_cuckoo(folder):
    """The peer over libcuckoo."""
    built = os.path.join(folder, "cuckoo")
    source = os.path.join(BENCH, "peers", "cuckoo", "cuckoo.cc")
    subprocess.run(["g++", "-O2", "-std=c++17", "-pthread", "-o", built, source], check=True)
    return built


def ours(name):
    """One of our programs. Where it is not built yet, it is proved and built first."""
    built = os.path.join(CRATES, name, "out", name)
    if not os.path.exists(built):
        subprocess.run(["rt", "run", "--", "--help"], cwd=os.path.join(CRATES, name), check=True, stdout=sys.stderr)
    return built


class Tools:
    """Our two programs, and the words that start the peers, before what they are asked. Each is built, the peers into a
    folder, when a part first asks for it."""

    def __init__(self, folder):
        demand()
        self.folder = folder

    @cached_property
    def jcache(self):
        return ours("jcache")

    @cached_property
    def jc_bench(self):
        return ours("jc_bench")

    @cached_property
    def java(self):
        return build_java(self.folder)

    @cached_property
    def rust(self):
        return build_rust(self.folder)

    @cached_property
    def runners(self):
        """What makes the calls of a script."""
        java = ["java", "-cp", self.java]
        quick = ["java", "-XX:+UseSerialGC", "-XX:TieredStopAtLevel=1", "-cp", self.java]
        runner = os.path.join(self.rust, "runner")
        return {
            "plain Rust": [runner],
            "typed Rust": [runner, "--typed"],
            "Caffeine": [*java, "CaffeineRunner"],
            "quick Caffeine": [*quick, "CaffeineRunner"],
            "Ehcache": [*java, "EhcacheRunner"],
        }

    @cached_property
    def maps(self):
        """Maps that threads share."""
        maps = os.path.join(self.rust, "maps")
        return {
            "dashmap": [maps, "dashmap"],
            "libcuckoo": [build_cuckoo(self.folder)],
            "mutex": [maps, "mutex"],
            "Caffeine": ["java", "-cp", self.java, "CaffeineMap"],
        }
