"""Moments that do not hang on how busy a machine is: those of the kernel, and a place before what else runs."""
import json
import os
import signal
import socket
import struct
import time

# Linux: a socket that tells with each frame at which moment of the system's time it came, in seconds and nanoseconds.
SO_TIMESTAMPNS = 35


def go_first(rank=1):
    """Runs this process, and what it starts from now on, before all processes of the common kind and of a lower rank; it stays among them
    where it may not."""
    try:
        os.sched_setscheduler(0, os.SCHED_RR, os.sched_param(rank))
    except OSError:
        pass


def tell_moments(listener):
    listener.setsockopt(socket.SOL_SOCKET, SO_TIMESTAMPNS, 1)


def receive(listener):
    """A frame, and the moment at which it came to the socket, as time.time() counts it, whenever it is read."""
    frame, told, _, _ = listener.recvmsg(65536, 64)
    for level, kind, value in told:
        if (level, kind) == (socket.SOL_SOCKET, SO_TIMESTAMPNS):
            seconds, nanoseconds = struct.unpack("qq", value)
            return frame, seconds + nanoseconds / 1e9
    return frame, time.time()


def waited_seconds(pid):
    """How long a process was ready to run and waited for a processor."""
    with open(f"/proc/{pid}/schedstat") as file:
        return int(file.read().split()[1]) / 1e9


class Watch:
    """A process on one processor, before all others there, that notes from when to when that processor ran nothing: the machine may be one
    whose host takes its processors away."""

    def __init__(self, processor):
        self.reader, writer = os.pipe()
        self.pid = os.fork()
        if self.pid == 0:
            stop, stood = [], []
            signal.signal(signal.SIGTERM, lambda *_: stop.append(True))
            os.sched_setaffinity(0, {processor})
            go_first(2)
            last = time.time()
            while not stop:
                time.sleep(0.002)
                now = time.time()
                if now - last > 0.005:
                    stood.append((last + 0.002, now))
                last = now
            with os.fdopen(writer, "w") as told:
                json.dump(stood, told)
            os._exit(0)
        os.close(writer)

    def stop(self):
        os.kill(self.pid, signal.SIGTERM)
        with os.fdopen(self.reader) as told:
            self.stood = json.load(told)
        os.waitpid(self.pid, 0)

    def stood_between(self, begin, end):
        """For how many seconds of these it ran nothing."""
        return sum(max(0, min(end, last) - max(begin, first)) for first, last in self.stood)
