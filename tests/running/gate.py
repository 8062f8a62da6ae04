"""The gate: `rt ci`, whose lines are shown as they come, and whose last line is counted."""
import re
import subprocess
import time

from running import record

LAST = re.compile(r"(\d+) passed, (\d+) failed\n\Z")


def run(tally):
    """Runs the gate, and returns whether all of it passed. What passes is recorded."""
    record.forget()
    began, last, read = time.time(), "", record.present()
    with subprocess.Popen(["rt", "ci"], stdout=subprocess.PIPE, stderr=subprocess.STDOUT, text=True, errors="replace") as ran:
        for line in ran.stdout:
            print(line, end="", flush=True)
            last = line
    found = LAST.search(last)
    minutes = (time.time() - began) / 60
    if not found or ran.returncode:
        tally.failed += int(found[2]) if found else 1
    tally.passed += int(found[1]) if found else 0
    print(f"the gate took {minutes:.0f} minutes", flush=True)
    if ran.returncode == 0:
        record.write(read)
    return ran.returncode == 0
