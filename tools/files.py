"""Files for the tools: read whole, written whole or not at all, and a plain message where that cannot be done."""
import os, stat, sys


class Unusable(Exception):
    """A file that cannot be read or written, and why."""


def read(name, most=-1):
    """The bytes of a file, the first ones where no more than `most` are wanted; `-` is standard input."""
    try:
        if name == "-":
            if sys.stdin is None:
                raise Unusable("standard input is closed")
            return sys.stdin.buffer.read(most)
        with open(name, "rb") as f:
            return f.read(most)
    except (OSError, ValueError) as e:  # ValueError: a name with a byte 0
        raise Unusable("cannot read %s: %s" % ("standard input" if name == "-" else name, getattr(e, "strerror", None) or e))


def write(name, data):
    """Writes a file through another beside it, so that no half of it is ever seen; `-` is standard output."""
    try:
        if name == "-":
            if sys.stdout is None:
                raise Unusable("cannot write: standard output is closed")
            sys.stdout.buffer.write(data)
            sys.stdout.buffer.flush()
            return
        if os.path.lexists(name) and not stat.S_ISREG(os.lstat(name).st_mode):  # a device, a pipe, a link: written where it leads
            with open(name, "wb") as f:
                f.write(data)
            return
        beside = os.path.join(os.path.dirname(name), ".%s.%d" % (os.path.basename(name)[:200], os.getpid()))
        try:
            with open(beside, "xb") as f:
                f.write(data)
            os.replace(beside, name)
        except BaseException:
            if os.path.lexists(beside):
                os.remove(beside)
            raise
    except OSError as e:
        if name == "-":  # or Python would try again at its end, and say so in its own words
            os.dup2(os.open(os.devnull, os.O_WRONLY), sys.stdout.fileno())
        raise Unusable("cannot write %s: %s" % ("standard output" if name == "-" else name, e.strerror or e))
