"""The rows of crates/zones_docs/data/rows, and those of this folder, with which the models of the commands are
compared.

fault() gives what a model answers otherwise than a row has it, or None; tools/fuzz_trace.py --self-test does this. The
form of the files is told in their README.md.
"""

import dataclasses
import pathlib

import bulk_model
import export_model
import index_model
import trace_model
from trace_lines import ALL_LINES, is_zone_name

# The commands with one word more, and what that has to be.
ONE_MORE = {"purge": lambda word: is_zone_name(word.encode()), "bulk": bulk_model.count_of}
TOOLS = pathlib.Path(__file__).resolve().parent
DATA = TOOLS.parent / "crates/zones_docs/data"


@dataclasses.dataclass
class Row:
    """An input with all that it is answered, which may begin with those of another row."""

    name: str
    after: str = None
    run: str = "trace"
    disk: str = None
    left: str = None
    status: str = "0"
    error: str = ""
    lines: list = dataclasses.field(default_factory=list)
    replies: list = dataclasses.field(default_factory=list)

    def take(self, line):
        """Takes a line of a file that isn't the row's first."""
        if line.startswith("= "):
            what, _, rest = line[2:].partition(" ")
            setattr(self, what, rest)
        elif line.startswith(">"):
            count, _, rest = line[1:].partition(" ")
            self.lines += [rest] * int(count or 1)
        elif line and not line.startswith("#"):
            self.replies.append(line)


def rows_of(file):
    """The rows of a file by their names."""
    rows = {}
    for line in file.read_text("latin-1").split("\n"):
        if line.startswith("== "):
            row = rows[line[3:]] = Row(line[3:])
        elif rows:
            row.take(line)
    return rows


def before(row, here, elsewhere):
    """The rows that a row begins with, the first one first, and the row itself."""
    if row.after is None:
        return [row]
    earlier = here[row.after] if row.after in here else elsewhere[row.after]
    return before(earlier, here, elsewhere) + [row]


def is_form(words):
    """Whether these are the words of a command."""
    if words[0] in ONE_MORE:
        return len(words) == 2 and bool(ONE_MORE[words[0]](words[1]))
    return len(words) == 1


def told(row, data):
    """The status and both texts that a model gives for the input of a row. Words come before the store."""
    if not is_form(row.run.split(" ")):
        return 2, b"", bulk_model.USAGE
    image = (DATA / row.disk).read_bytes() if row.disk else b""
    if row.run == "index":
        return index_model.run(image)
    if row.run == "export":
        return export_model.run(data)
    if row.run.startswith("bulk "):
        return index_model.opened(image, lambda store: bulk_model.run(row.run.split(" ")[1], store))
    return index_model.opened(image, lambda store: trace_model.run(data, store, ALL_LINES, row.run))


def row_fault(row, chain):
    """What a model answers otherwise to a row, which ends a chain of rows, or None."""
    lines, replies = ([line for it in chain for line in getattr(it, what)] for what in ("lines", "replies"))
    data, want = ("".join(line + "\n" for line in it).encode("latin-1") for it in (lines, replies))
    status, out, err = told(row, data)
    error = (row.error + "\n").encode() if row.error else b""
    if (status, out, err) == (int(row.status), want, error):
        return None
    got = out.decode("latin-1").split("\n")
    at = next((at for at, (a, b) in enumerate(zip(got, replies)) if a != b), min(len(got), len(replies)))
    return "%s: status %d, %r, line %d of the replies: %r" % (row.name, status, err, at + 1, got[at:at + 2])


def fault():
    """What a model answers otherwise than a row has it, or None."""
    files = [*sorted((DATA / "rows").glob("*.rows")), *sorted(TOOLS.glob("*.rows"))]
    files = {file.name: rows_of(file) for file in files}
    everywhere = {name: row for rows in files.values() for name, row in rows.items()}
    for file, rows in files.items():
        for row in rows.values():
            found = row_fault(row, before(row, rows, everywhere))
            if found is not None:
                return "%s: %s" % (file, found)
    return None
