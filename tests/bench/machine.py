"""Where and with what the figures are made, as a Markdown list.

    machine.py ARCHIVE
"""

import hashlib
import os
import platform
import re
import subprocess
import sys
import time
from pathlib import Path


def first_line(*command):
    try:
        return subprocess.run(command, capture_output=True, text=True, check=True).stdout.splitlines()[0]
    except (OSError, subprocess.CalledProcessError, IndexError):
        return f"no {command[0]}"


def main():
    if len(sys.argv) != 2:
        sys.exit(__doc__)
    archive = Path(sys.argv[1]).read_bytes()
    model = re.search(r"^model name\s*: (.*)$", Path("/proc/cpuinfo").read_text(encoding="ascii"), re.MULTILINE)
    load = " ".join(f"{one:.2f}" for one in os.getloadavg())
    for what, is_ in {
        "date": time.strftime("%Y-%m-%d %H:%M UTC", time.gmtime()),
        "processor": f"{model[1] if model else 'unknown'}, {os.cpu_count()} of them; load of the last 1, 5, 15 minutes: {load}",
        "archive": f"{len(archive)} bytes, SHA-256 {hashlib.sha256(archive).hexdigest()[:16]}..",
        "Rust": first_line("rustc", "--version"),
        "C": first_line(os.environ.get("CC", "cc"), "--version") + ", " + " ".join(platform.libc_ver()),
        "callgrind": first_line(os.environ.get("VALGRIND", "valgrind"), "--version"),
    }.items():
        print(f"- {what}: {is_}")


if __name__ == "__main__":
    main()
