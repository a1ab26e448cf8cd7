"""The check door: `checks/door [--whole]`."""
import sys

from wfdev.build.check import main

if __name__ == "__main__":
    sys.exit(main(sys.argv[1:]))
