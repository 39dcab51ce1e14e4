"""Has the sockets of running processes lose datagrams that come, each by chance.

    loss.py THOUSANDTHS PID..

Each socket of the processes gets a filter that drops so many of a thousand; with 0 no filter stays. It wants Linux 5.6, and the right to
trace the processes.
"""

import contextlib
import ctypes
import os
import socket
import struct
import sys

PIDFD_GETFD = 438
ATTACH_FILTER, DETACH_FILTER = 26, 27
RANDOM = 0xFFFFF000 + 56
libc = ctypes.CDLL(None, use_errno=True)


def sockets(pid):
    """The sockets of a process, as own ones."""
    process = os.pidfd_open(pid)
    for name in os.listdir(f"/proc/{pid}/fd"):
        if os.readlink(f"/proc/{pid}/fd/{name}").startswith("socket:"):
            number = libc.syscall(PIDFD_GETFD, process, int(name), 0)
            if number < 0:
                raise OSError(ctypes.get_errno(), f"no socket of process {pid}")
            yield socket.socket(fileno=number)
    os.close(process)


def lose(one, thousandths):
    if thousandths == 0:
        with contextlib.suppress(FileNotFoundError):
            one.setsockopt(socket.SOL_SOCKET, DETACH_FILTER, 0)
        return
    # a random number; below the limit the datagram is dropped, else taken whole
    limit = min(thousandths * 2**32 // 1000, 2**32 - 1)
    steps = [(0x20, 0, 0, RANDOM), (0x35, 1, 0, limit), (0x06, 0, 0, 0), (0x06, 0, 0, 2**32 - 1)]
    program = ctypes.create_string_buffer(b"".join(struct.pack("=HBBI", *step) for step in steps))
    one.setsockopt(socket.SOL_SOCKET, ATTACH_FILTER, struct.pack("@HP", len(steps), ctypes.addressof(program)))


def main():
    for pid in sys.argv[2:]:
        for one in sockets(int(pid)):
            with one:
                lose(one, int(sys.argv[1]))


main()
