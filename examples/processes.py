"""What the bridge, the league and the tests need of the machine: a free port, and processes that end with the one that started them."""
from __future__ import annotations

import ctypes
import os
import signal
import socket
import sys

LIBC = ctypes.CDLL(None)


def free_port() -> int:
    """A port of 127.0.0.1 that nobody listens on."""
    with socket.create_server(("127.0.0.1", 0)) as listener:
        port: int = listener.getsockname()[1]
        return port


def end_with_parent(parent: int) -> None:
    """Asks Linux to end this process when its parent ends, however that comes about (PR_SET_PDEATHSIG)."""
    if sys.platform == "linux":
        LIBC.prctl(1, signal.SIGKILL)
        if os.getppid() != parent:  # it ended before it could be asked
            os._exit(1)
