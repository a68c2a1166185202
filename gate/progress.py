"""What a person who waits for proofs reads: lines with the time, and at the end one reason."""
import re
import sys
import time

PLACE = re.compile(r"(?:note: )?(?:\./)?(?:src|specs|proofs)/\S+?:\d+:\d+: ")
FUNCTION = re.compile(r"fn \S+: (not proved|no proof|not checked)")


def clock(seconds):
    """Returns minutes and seconds."""
    return f"{int(seconds) // 60}:{int(seconds) % 60:02d}"


def say(text):
    print(f"{time.strftime('%H:%M:%S')} {text}", flush=True)


def table(title, rows):
    """Prints how long each row took, the longest first."""
    print(f"\n{title}")
    for name, seconds in sorted(rows, key=lambda it: -it[1]):
        print(f"  {clock(seconds):>7}  {name}")
    sys.stdout.flush()


def each_minute(ended, text):
    """Prints a line a minute, after how many minutes and what `text` returns, until the event `ended`."""
    begun = time.time()
    while not ended.wait(60):
        say(f"{clock(time.time() - begun)}: {text()}")


def first_reason(lines):
    """Returns why a check failed by what it printed: its first error at a place, or else the first note at one, with the
    first function that isn't proved; if there is neither, the last lines."""
    lines = [it for it in map(str.rstrip, lines) if it]
    places = [it for it in lines if PLACE.match(it)]
    said = next((it for it in places if ": error" in it), None) or next(iter(places), None)
    function = next((it for it in lines if FUNCTION.match(it)), None)
    return "; ".join(filter(None, (said, function))) or " / ".join(lines[-4:]) or "it printed nothing"
