"""The session program, for the tools that read what it prints: where it is, its listing of a session, and that listing taken apart."""
import collections, os, re, subprocess
from files import Unusable
from layout import MOST_BYTES

ROOT = os.path.join(os.path.dirname(os.path.realpath(__file__)), "..")
BAD = "bad session\n"
LISTING = re.compile(r"((?:\d+ \d+ \d+\n)*)((?:place \d+ \d+ \d+\n)*)held (\d+) way (\d+) total (\d+)\n")
Listing = collections.namedtuple("Listing", "steps places held way total")


def find():
    """The program's path; ./run proves and builds it where that is due, and says so."""
    ran = subprocess.run([os.path.join(ROOT, "run"), "--build"], stdin=subprocess.DEVNULL, stdout=subprocess.PIPE)
    if ran.returncode:
        raise Unusable("there is no session program: ./run did not build it")
    return os.fsdecode(ran.stdout).rstrip("\n")


def listing_of(program, data):
    """What the program prints of a session, whole. One byte more than a session has is enough to see that one is too long."""
    try:
        ran = subprocess.run([program], input=data[:MOST_BYTES + 1], capture_output=True)
    except OSError as e:
        raise Unusable("cannot call %s: %s" % (program, e.strerror))
    text = ran.stdout.decode("ascii", "replace")
    if ran.returncode or ran.stderr or text != BAD and not LISTING.fullmatch(text):
        raise Unusable("%s printed no listing; its status is %d" % (program, ran.returncode))
    return text


def taken_apart(text):
    """A listing's figures: steps [(number, detail)], places {place: (balance, reserved)}; None for a bad session."""
    if text == BAD:
        return None
    steps, places, *last = LISTING.fullmatch(text).groups()
    figures = [tuple(map(int, line.split()[1:])) for line in places.splitlines()]
    return Listing([tuple(map(int, line.split()[1:])) for line in steps.splitlines()],
                   {place: (balance, reserved) for place, balance, reserved in figures}, *map(int, last))
