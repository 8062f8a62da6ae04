"""Commands that packages are made with."""
import subprocess
import sys


def output(words, folder=None):
    """What a command prints. Where it fails, all ends with what it says."""
    ran = subprocess.run(words, cwd=folder, capture_output=True, text=True, errors="replace")
    if ran.returncode:
        sys.exit(f"{' '.join(map(str, words))}: status {ran.returncode}\n{(ran.stderr or ran.stdout)[-2000:]}")
    return ran.stdout
