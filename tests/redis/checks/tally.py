"""Runs checks one after another, and prints a line for each."""
import sys
import time
import traceback


def run(checks, chosen=()):
    """Runs (what, function) in order. A function that returns a text, or raises, failed for that reason."""
    failed = 0
    for what, function in checks:
        if chosen and not any(it in what for it in chosen):
            continue
        began = time.time()
        try:
            why = function()
        except Exception as error:  # whatever it is, the other checks go on
            place = traceback.extract_tb(error.__traceback__)[-1]
            why = f"{type(error).__name__} {str(error)[:300]} ({place.filename.rsplit('/', 1)[-1]}:{place.lineno})"
        failed += bool(why)
        print(f"failed: redis: {what}: {why}" if why else f"ok: redis: {what} ({time.time() - began:.1f} seconds)", flush=True)
    sys.exit(1 if failed else 0)


def differs(got, wanted):
    """Why two things are not the same, if they are not."""
    return None if got == wanted else f"got {got!r}, wanted {wanted!r}"
