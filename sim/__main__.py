"""`python3 -m sim SCENARIO`, which `./wf sim SCENARIO` runs."""
import signal
import sys
from types import FrameType

from .cli import main


def stop(number: int, _frame: FrameType | None) -> None:
    """Ends the bench so that it takes back the files that it was writing."""
    sys.exit(128 + number)


for one in (signal.SIGTERM, signal.SIGHUP):
    signal.signal(one, stop)
sys.exit(main())
