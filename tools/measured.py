"""What proofs and tests take of a processor: as this clone measured it last, else as tools/seconds.txt has it. A line
of either is a kind, a name and seconds."""

import os
import resource

from sources import OUT, ROOT

LISTED, OWN = os.path.join(ROOT, "tools", "seconds.txt"), os.path.join(OUT, "seconds")


def lines_of(path):
    try:
        with open(path, encoding="utf-8") as file:
            return [line for line in file.read().splitlines() if line.strip()]
    except OSError:
        return []


def read_seconds():
    """By kind and name."""
    found = {}
    for line in [*lines_of(LISTED), *lines_of(OWN)]:
        words = line.split()
        if not line.startswith("#") and len(words) == 3 and words[2].isdigit():
            found[words[0], words[1]] = int(words[2])
    return found


def note(kind, seconds):
    """Notes what was measured just now, by name."""
    if not seconds:
        return
    found = {tuple(line.split()[:2]): line for line in lines_of(OWN)}
    found.update({(kind, name): f"{kind} {name} {max(1, round(took))}" for name, took in seconds.items()})
    os.makedirs(OUT, exist_ok=True)
    with open(OWN + ".new", "w", encoding="utf-8") as file:
        file.write("".join(f"{found[one]}\n" for one in sorted(found)))
    os.replace(OWN + ".new", OWN)


def write_list():
    """Writes tools/seconds.txt anew, with what this clone measured."""
    head = [line for line in lines_of(LISTED) if line.startswith("#")]
    found = [f"{kind} {name} {seconds}" for (kind, name), seconds in sorted(read_seconds().items())]
    with open(LISTED, "w", encoding="utf-8") as file:
        file.write("".join(f"{line}\n" for line in [*head, *found]))


def processor():
    """The processor seconds of all that this process has started and that has ended."""
    used = resource.getrusage(resource.RUSAGE_CHILDREN)
    return used.ru_utime + used.ru_stime
