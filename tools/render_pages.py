#!/usr/bin/env python3
"""Renders the manual pages of man/ by mandoc and by groff, whichever is there.

    tools/render_pages.py

Each warning is printed, and the status is 1 where there is one. Where no formatter is there it says so, and the status is 0.
"""

import pathlib
import shutil
import subprocess
import sys

MAN = pathlib.Path(__file__).resolve().parent.parent / "man"
FORMATTERS = [["mandoc", "-T", "lint", "-W", "warning"], ["groff", "-ww", "-mandoc", "-Tutf8", "-z"]]


def warnings(words, page):
    """What a formatter says of a page: mandoc on standard output, groff on standard error."""
    run = subprocess.run([*words, str(page)], capture_output=True, text=True, check=False)
    return run.stderr + (run.stdout if words[0] == "mandoc" else "")


def main():
    found = [words for words in FORMATTERS if shutil.which(words[0])]
    if not found:
        print("neither mandoc nor groff is there")
    said = "".join(warnings(words, page) for words in found for page in sorted(MAN.iterdir()))
    sys.stdout.write(said)
    return 1 if said else 0


if __name__ == "__main__":
    sys.exit(main())
