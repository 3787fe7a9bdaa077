"""The command, run as a folder or as a zipapp file: `python3 tools/view REPORT`."""

import contextlib
import os
import sys

try:
    from goodlock_view.command import main
except KeyboardInterrupt:  # it takes a moment, in which the command can't tell yet
    with contextlib.suppress(OSError):
        os.write(2, b"goodlock-view: interrupted\n")
    sys.exit(2)

if __name__ == "__main__":
    sys.exit(main())
