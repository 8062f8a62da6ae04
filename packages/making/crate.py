"""The binding for Rust as a crate, whose build script finds the installed library."""
import gzip
import io
import os
import sys
import tarfile

from running import record

FOLDER = "bindings/rust"
LEFT_OUT = ("tests/",)


def build(checkout, into):
    with open(f"{FOLDER}/Cargo.toml", encoding="utf-8") as file:
        if f'version = "{checkout.version}"' not in file.read().splitlines():
            sys.exit(f"{FOLDER}/Cargo.toml has another version than {checkout.version}")
    top = f"jcache-{checkout.version}"
    files = {name[len(FOLDER) + 1:]: name for name in record.sources((FOLDER,))}
    files["LICENSE"] = "LICENSE"
    packed = io.BytesIO()
    with tarfile.open(fileobj=packed, mode="w", format=tarfile.USTAR_FORMAT) as crate:
        for name in sorted(name for name in files if not name.startswith(LEFT_OUT)):
            entry = tarfile.TarInfo(f"{top}/{name}")
            entry.size, entry.mtime, entry.mode = os.path.getsize(files[name]), checkout.seconds, 0o644
            with open(files[name], "rb") as file:
                crate.addfile(entry, file)
    with open(f"{into}/{top}.crate", "wb") as file:
        file.write(gzip.compress(packed.getvalue(), mtime=0))
