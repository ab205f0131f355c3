"""The clock that leases are reckoned by."""
import time


def now() -> float:
    """Seconds that nobody sets, and that pass while the machine sleeps too."""
    return time.clock_gettime(time.CLOCK_BOOTTIME)
