"""The worked rows: those that programs of rows answer stand in the crates' files `stdin`, and those that the built program
answers in the folder `rows`."""

from program import TOP

ESCAPES = {"n": "\n", "t": "\t", "r": "\r"}


def expanded(text):
    """The bytes that a text of a row stands for, as crates/ic_notation says."""
    parts = []
    for part in text.split("["):
        repeat, found, rest = part.partition("]")
        if found:
            count, _, piece = repeat.partition(" ")
            if "#" not in piece and "^" not in piece:
                parts.append(piece * int(count))
                count = 0
            for time in range(1, int(count) + 1):
                parts.append(piece.replace("#", str(time)).replace("^", str(time + 1)))
        else:
            rest = part
        first, *others = rest.split("~")
        parts.append(first)
        for it in others:
            parts.append(ESCAPES[it[0]] + it[1:] if it[:1] in ESCAPES else chr(int(it[:2], 16)) + it[2:])
    return "".join(parts).encode("latin-1")


def file_of(where):
    """The file of rows of a crate, or of the folder `rows`."""
    crate = TOP / "crates" / where / "stdin"
    return crate if crate.exists() else TOP / "trials/rows" / where


def rows(where, *kinds):
    """The rows of these kinds: name, kind, text and answer."""
    found = []
    for line in file_of(where).read_text("latin-1").split("\n"):
        name, colon, rest = line.partition(": ")
        asked, arrow, answer = rest.rpartition(" => ")
        kind, _, text = asked.partition(" ")
        if colon and arrow and kind in kinds and not line.startswith("--"):
            found.append((name, kind, text, expanded(answer)))
    return found


def short_texts(where, *kinds, most=300):
    """The different texts of these rows that have at most so many bytes, in order."""
    texts = [expanded(text) for _, _, text, _ in rows(where, *kinds)]
    return list(dict.fromkeys(text for text in texts if len(text) <= most))
