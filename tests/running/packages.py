"""Debian's packages that the tests beside the gate want: each is named in a file `packages` of a test's folder, with a
command or a file that shows that it is there. What is wanted with `--all` alone is named in `packages-all`."""
import os
import shutil
import subprocess
import time

# So many seconds may pass until all that is missing is there, and with --all.
LIMIT, LIMIT_OF_ALL = 120, 600


def wanted(test, everything):
    """The packages of a test, with what shows that each is there."""
    found = {}
    for file in ("packages", "packages-all")[:1 + everything]:
        if os.path.isfile(f"tests/{test}/{file}"):
            with open(f"tests/{test}/{file}", encoding="utf-8") as lines:
                found |= dict(line.split() for line in lines if line.strip())
    return found


def is_there(shown_by):
    return os.path.exists(shown_by) if shown_by.startswith("/") else shutil.which(shown_by) is not None


def missing(tests, everything):
    found = (item for test in tests for item in wanted(test, everything).items())
    return sorted({package for package, shown_by in found if not is_there(shown_by)})


def install(tests, everything):
    """Installs what is missing, as root and within the limit; what then still lacks is skipped by who needs it."""
    lacking = missing(tests, everything)
    if not lacking:
        return
    print(f"packages of Debian that are wanted: {' '.join(lacking)}", flush=True)
    if os.geteuid() or not shutil.which("apt-get"):
        return
    end = time.time() + (LIMIT_OF_ALL if everything else LIMIT)
    for words in (["update"], ["install", "--yes", "--no-install-recommends", *lacking]):
        try:
            quiet = {"stdin": subprocess.DEVNULL, "stdout": subprocess.DEVNULL, "stderr": subprocess.DEVNULL}
            environment = {**os.environ, "DEBIAN_FRONTEND": "noninteractive"}
            subprocess.run(["apt-get", "-qq", *words], timeout=max(1, end - time.time()), env=environment, **quiet)
        except subprocess.TimeoutExpired:
            return
