"""The machine instructions of a command, counted by valgrind's callgrind. Used by the tools beside it."""
import re
import subprocess
import sys


def instructions(command, source, profile="/dev/null"):
    """How many machine instructions a command makes on the file `source`. What each function costs is written to `profile`."""
    words = ["valgrind", "--tool=callgrind", f"--callgrind-out-file={profile}", *command]
    with open(source, "rb") as given:
        ran = subprocess.run(words, stdin=given, stdout=subprocess.DEVNULL, stderr=subprocess.PIPE, text=True, errors="replace")
    found = re.search(r"Collected : (\d+)", ran.stderr)
    if not found:
        sys.exit(f"callgrind counted nothing: {ran.stderr[-300:]}")
    return int(found[1])
