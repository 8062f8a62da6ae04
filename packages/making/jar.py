"""The provider for Java as a jar, by its own build, with its pom."""
import os
import shutil
import sys

from making.commands import output

FOLDER = "bindings/jsr107"


def build(archives, checkout, work, into):
    with open(f"{FOLDER}/pom.xml", encoding="utf-8") as file:
        if f"  <version>{checkout.version}</version>" not in file.read().splitlines():
            sys.exit(f"{FOLDER}/pom.xml has another version than {checkout.version}")
    archive, heap = map(os.path.abspath, archives)
    output(["env", f"JCACHE_ARCHIVE={archive}", f"JCACHE_HEAP={heap}", f"{FOLDER}/build", f"{work}/java"])
    name = f"{into}/jcache-jsr107-{checkout.version}"
    shutil.copyfile(f"{work}/java/jcache-jsr107.jar", f"{name}.jar")
    shutil.copyfile(f"{FOLDER}/pom.xml", f"{name}.pom")
