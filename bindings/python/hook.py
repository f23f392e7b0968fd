#!/usr/bin/env python3
"""Says what a mirror would do with a bundle, and changes nothing.

    hook.py MIRROR [BUNDLE]     BUNDLE, or standard input
    DM=PROGRAM                  the program, if not the `dm` of the PATH

The answer is that of `dm apply --mirror MIRROR --dry-run`: its line goes to standard output, an explanation to standard error. The
exit status is 0 where all of the bundle would be taken, 1 where not, 2 where there is no answer, as where there is no mirror.
"""
import os
import subprocess
import sys


def main(mirror, bundle="-"):
    # Without a mirror the program would tell what a new one does.
    if not os.path.getsize(mirror):
        raise OSError(f"{mirror}: an empty file is no mirror")
    words = os.environ.get("DM", "dm"), "apply", "--mirror", mirror, "--dry-run", "--quiet", "--explain", "--", bundle
    status = subprocess.run(words, check=False).returncode
    return status if status in (0, 1) else 2


if __name__ == "__main__":
    try:
        sys.exit(main(*sys.argv[1:]))
    except (OSError, TypeError) as error:
        print(f"hook.py: {error}", file=sys.stderr)
        sys.exit(2)
