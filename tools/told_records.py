"""What the plain model in trace_model.py says of a trace and its records, for comparing a store with the replies that were
written."""

import export_model
import trace_model as model
from store_model import Store
from store_reader import body, removal
from trace_lines import OLD_LINES


class LoggedStore(Store):
    """The zones that are stored after some changes, and the body of each record in order."""

    def __init__(self, changes=()):
        super().__init__()
        self.changes, self.bodies = [], []
        for change in changes:
            self.change(*change)

    def change(self, name, record, number, commit=False):
        super().change(name, record, number, commit)
        self.changes.append((name, record, number, commit))
        now, zone = self.records.get(name), name.decode()
        self.bodies.append(
            removal(zone) if now is None else body(zone, now.state, now.uuid, now.revision, now.config.text()))


class Told:
    """What the model says of a trace over a store that some changes made, where such kinds of lines are known: the
    whole text, and for each record that the trace adds how long the text is with its reply."""

    def __init__(self, data, changes=(), known=OLD_LINES):
        self.store, self.text, self.ends = LoggedStore(changes), b"", []
        self.before = len(self.store.bodies)
        host = model.Host(store=self.store, known=known)
        for line in export_model.lines_of(data):
            event, count = host.read(line), len(self.store.bodies)
            if event is not None:
                self.text += host.answer(event).reply()
            self.ends += [len(self.text)] * (len(self.store.bodies) - count)

    def answered(self, text):
        """How many records there are up to the last one whose reply was written."""
        return self.before + sum(end <= len(text) for end in self.ends)

    def differs(self, text, found, most=1):
        """What is wrong where such a text was written and a store has such bodies, or None: the text is whole replies
        from the first one on, and the records are those that it tells, or so many more."""
        if not self.text.startswith(text) or (text and not text.endswith(b"\n")):
            return "the replies are no front of the model's: %r" % text[-200:]
        for number, (got, wanted) in enumerate(zip(found, self.store.bodies), 1):
            if got != wanted:
                return "record %d differs\nmodel:   %r\nprogram: %r" % (number, wanted, got)
        if not self.answered(text) <= len(found) <= self.answered(text) + most:
            return "%d records, and %d were answered" % (len(found), self.answered(text))
        return None
