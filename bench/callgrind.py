"""Instructions by valgrind's callgrind."""
import re
import subprocess
import sys


def inside(call, command, given=""):
    """What the command wrote, given these words, and the instructions that ran inside the call."""
    tool = ["valgrind", "--tool=callgrind", f"--toggle-collect={call}", "--callgrind-out-file=/dev/null"]
    done = subprocess.run([*tool, *command], input=given, text=True, capture_output=True)
    found = re.search(r"Collected : (\d+)", done.stderr)
    if done.returncode or not found:
        sys.exit(f"{command[0]}: status {done.returncode}: {done.stderr[-500:]}")
    return done.stdout, int(found[1])
