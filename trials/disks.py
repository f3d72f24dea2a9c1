"""Disks as lists of bytes, by the layout of docs/book.md."""

import re

from program import TOP

SECOND = 4_194_304
HEAD = 13
EMPTY = b"ICT2\0"
OLD_EMPTY = b"ICT1\0"


def slot(number, body, gate=1):
    """A slot's bytes: its gate, its number, the length of its body and the body."""
    return bytes([gate]) + number.to_bytes(8, "big") + len(body).to_bytes(4, "big") + body


def disk_of(first, second=bytes(HEAD)):
    """A disk with these bytes in its two slots."""
    return first.ljust(SECOND, b"\0") + second


def put(path, first, second=bytes(HEAD)):
    """Writes a disk with these bytes in its two slots to a file, which has no blocks between them."""
    with open(path, "wb") as file:
        file.write(first)
        file.seek(SECOND)
        file.write(second)


def table_by_hand():
    """The bytes of the table that docs/byte-form.md writes down by hand: the job `two` as it is submitted."""
    rows = (TOP / "docs/byte-form.md").read_text().split("## A table by hand")[1].split("\n## ")[0]
    cells = [line.split("|")[1] for line in rows.split("\n") if line.startswith("| `")]
    return bytes.fromhex("".join(re.findall(r"[0-9a-f]{2}", " ".join(cells))))


def old_form(table):
    """The old form of a table of one job without a budget, from the form that is written."""
    after_rounds = 4 + 1 + 1 + table[5] + 1 + 8
    return b"ICT1" + table[4:after_rounds] + table[after_rounds + 8 :]


def newest(data):
    """Which slot of a disk is the newest, with its number and its body; None where none is open."""
    heads = [(data[at : at + HEAD], at) for at in (0, SECOND)]
    opened = [(int.from_bytes(head[1:9], "big"), at) for head, at in heads if len(head) == HEAD and head[0] == 1]
    if not opened:
        return None
    number, at = max(opened)
    return at, number, data[at + HEAD : at + HEAD + int.from_bytes(data[at + 9 : at + HEAD], "big")]
