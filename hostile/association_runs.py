"""What a row of whole associations may tell where one of its runs was refused memory.

A row `run` has three runs, in reads of all, of 1 byte and of 7. Of these one alone may differ: it
ends with want of memory behind a front of what is always written, or it answers A700H or A702H.
Where the earlier association of a row `before` was refused memory, the run is that over the images
that were stored all the same. The writer is in memory too, and fails where it is refused memory,
which the run tells as that.
"""
import itertools
import re

KIND = "run"
# How a run ends that was refused memory itself, or whose writer was: it is in memory, and fails then.
ENDS = {"fault: memory was refused": "told", "fault: the connection could not be written": "aside"}
STORED = re.compile(" (put-[0-9]+) (?:\\1-data|put-large)")
# The status A700H or A702H in a response, also in fragments of two bytes, or the words that rows have for such a response.
REFUSED = re.compile("out-of-resources|no-look|no-get|00000009020000000[02]a7"
                     "|0009 [0-9a-f]{24}0200 [0-9a-f]{24}0000 [0-9a-f]{24}0[02]a7")


def earlier(line):
    """A row `before` with each choice of the images that its peer stores."""
    images = [found[0] for found in STORED.finditer(line)]
    for left in itertools.product((False, True), repeat=len(images)):
        text = line
        for image, is_left in zip(images, left):
            text = text.replace(image, "") if is_left else text
        yield text


def runs(text):
    """The runs of a row `run`: in reads of all, of 1 byte and of 7."""
    first, *rest = re.split("\\nin reads of ([0-9]+): ", text.removesuffix("\n"))
    whole = first.partition(" bytes: ")[2]
    found = dict(zip(rest[::2], rest[1::2]))
    return [whole, found.get("1", whole), found.get("7", whole)]


def way_of_front(told, usual):
    """What a run tells that did a front of what it always does, and then was refused memory or its writer was."""
    (_, *old), (ended, *new) = usual.split("\n"), told.split("\n")
    asked, written = new[:-1], new[-1].split()[1:]
    is_front = written == ["nothing"] or old[-1].split()[1:][:len(written)] == written
    return next((way for end, way in ENDS.items() if ended.startswith(end) and is_front and old[:len(asked)] == asked),
                None)


def judge_runs(usual, told, others):
    old, new = runs(usual), runs(told)
    strays = [at for at in range(3) if old[at] != new[at]]
    if len(strays) != 1:
        return None
    at = strays[0]
    if REFUSED.search(new[at]) and not REFUSED.search(old[at]):
        return "told"
    if way_of_front(new[at], old[at]):
        return way_of_front(new[at], old[at])
    return "aside" if any(new[at] == runs(it)[at] for it in others()) else None


def judge(usual, told, others):
    """What a row tells: told, or aside where the run that was refused memory is not told of, else none."""
    if told == "out of memory\n":
        return "told"
    return judge_runs(usual, told, others)
