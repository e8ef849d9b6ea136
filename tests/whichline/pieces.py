"""Feeds a listing to the program piece by piece."""
import contextlib
import fcntl
import os
import struct
import subprocess
import tempfile
import termios
import time

SIZES = (1, 7, 100, 4096, 8192, 8193, 65535, 65536)


def cut(rnd, listing):
    """The listing in pieces of one size or of any sizes, at most some thousand."""
    size, at, pieces = rnd.choice(SIZES + (0,)), 0, []
    least = len(listing) // 3000 + 1
    while at < len(listing):
        step = max(size or rnd.choice(SIZES), least)
        pieces.append(listing[at:at + step])
        at += step
    return pieces


def waits(pipe):
    """How many bytes of the pipe are not read yet."""
    return struct.unpack("i", fcntl.ioctl(pipe, termios.FIONREAD, b"\0" * 4))[0]


def feed(command, folder, pieces):
    """What the program prints if it reads each piece by itself: the next is written when the one before is gone."""
    with tempfile.TemporaryFile() as out:
        running, end = subprocess.Popen(command, cwd=folder, stdin=subprocess.PIPE, stdout=out), time.monotonic() + 120
        # A program that ends too early has printed too little, and that is seen.
        with contextlib.suppress(BrokenPipeError):
            for piece in pieces:
                os.write(running.stdin.fileno(), piece)
                while waits(running.stdin.fileno()) and running.poll() is None and time.monotonic() < end:
                    time.sleep(0)
        running.stdin.close()
        running.wait(120)
        out.seek(0)
        return out.read()
