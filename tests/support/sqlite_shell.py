"""The shell sqlite3, as a museum has it beside the desk."""

import subprocess

def shell(store, asked, *words):
    """What sqlite3 tells of a store. It fails where sqlite3 does."""
    ran = subprocess.run(["sqlite3", "-batch", "-bail", *words, store, asked], capture_output=True, timeout=60)
    assert (ran.returncode, ran.stderr) == (0, b""), f"{asked}: {ran.stderr.decode()}"
    return ran.stdout.decode()
