"""How many processors this process may use."""
import os

# As many worker threads as the proved programs start if none are asked for.
DEFAULT_WORKERS = 4


def usable() -> int:
    """The processors that the system lets this process use, 1 or more: a class's machine may give it fewer than it
    has."""
    if hasattr(os, "sched_getaffinity"):
        return len(os.sched_getaffinity(0))
    return os.cpu_count() or 1


def workers(asked: int) -> int:
    """As many worker threads as were asked for, but no more than processors. A worker without a processor holds up the
    others: most nodes then lie in its queue, from which nobody takes them."""
    return min(asked, usable())
