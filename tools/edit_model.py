"""A plain model of the editor of one zone, as zonecfg(8) has it: its subcommands, what it shows, and what it asks of
the system.

run(edit, line) gives what a line of subcommands shows and how the session that typed it goes on. What needs the stored
zones is asked of `edit.system`: verify, commit, revert and delete. Tokens, values, resources and the subcommands that
change a configuration are those of export_model.py.
"""

import export_model
from export_model import Refused

HELP = "add cancel clear commit create delete end exit export help info remove revert select set verify"
# What ends a line of subcommands: none of them stands anywhere else.
ENDING = ("commit", "delete", "exit")
# What stands in the global scope alone, and needs a configuration that is open, beside what changes the configuration.
GLOBAL_ONLY = ("commit", "delete", "export", "revert", "verify")


# What `info` shows.

def resource_lines(kind, resource):
    """A resource: its kind, and then what is set in it."""
    shown = ["%s: %s" % (name, resource[name]) for name in export_model.FIELDS[kind] if resource[name]]
    if kind == "fs" and resource["options"]:
        shown.append("options: [%s]" % ",".join(resource["options"]))
    if kind == "rctl":
        shown += ["value: (priv=privileged,limit=%s,action=%s)" % limit for limit in resource["value"]]
    return [kind + ":"] + ["    " + line for line in shown]


def kind_lines(config, kind):
    return [line for resource in config[kind] for line in resource_lines(kind, resource)]


def property_line(config, name):
    return "%s: %s" % (name, config[name])


def info(name, config, asked):
    """What `info` shows of a configuration: all of it, or the part that is asked for."""
    if asked in export_model.GLOBAL:
        return [property_line(config, asked)]
    if asked in export_model.KINDS:
        return kind_lines(config, asked)
    if asked in export_model.ALIASES:
        rctl = export_model.ALIASES[asked][0]
        return [line for it in config["rctl"] if it["name"] == rctl for line in resource_lines("rctl", it)]
    shown = ["zonename: %s" % name.decode()] + [property_line(config, it) for it in export_model.GLOBAL]
    return shown + [line for kind in export_model.KINDS for line in kind_lines(config, kind)]


# The editor.

class Edit(export_model.Editor):
    """The editor of a zone. `base` is the configuration that it began from or committed last, and `seen` the revision
    of it; without one, None and 0."""

    def __init__(self, name, system):
        super().__init__()
        self.name, self.system = name, system
        self.base, self.seen = None, 0
        if name in system.store.records:
            self.rebase()

    def rebase(self):
        """Begins anew from what is stored."""
        record = self.system.store.records[self.name]
        self.base, self.seen = record.config.values, record.revision
        self.config, self.scope = export_model.copy(self.base), None

    def is_changed(self):
        return self.config is not None and self.config != self.base

    def obey(self, command):
        """Does a subcommand, and answers what it shows. A subcommand needs something open, then its scope, then -F."""
        verb = command[0]
        if verb == "help":
            return [HELP]
        if verb == "exit":
            return self.exit(command[1])
        if self.config is None and verb != "create":
            raise Refused("33 NothingOpen")
        if verb == "info":
            return self.info(command[1])
        if verb not in GLOBAL_ONLY:
            super().obey(command)
            return []
        if self.scope is not None:
            raise Refused("32 WrongScope %s" % self.scope[0])
        if verb in ("delete", "revert") and not command[1]:
            raise Refused("34 NeedForce")
        return getattr(self, verb)() or []

    def info(self, asked):
        """Shows the open resource, or the configuration; a part that is named is of the configuration."""
        if self.scope is None:
            return info(self.name, self.config, asked)
        if asked is not None:
            raise Refused("32 WrongScope %s" % self.scope[0])
        return resource_lines(self.scope[0], self.scope[1])

    def export(self):
        return export_model.export_text(self.config).splitlines()

    def verify(self):
        self.system.verify(self.config)

    def commit(self):
        self.system.commit_edited(self.name, self.config, self.seen)
        self.rebase()

    def revert(self):
        if self.name not in self.system.store.records:
            raise Refused("90 NoZone")
        self.rebase()

    def delete(self):
        self.system.delete(self.name, self.seen)

    def exit(self, forced):
        """Leaves, or commits and leaves where something changed. What is open in a scope would be lost, and so would
        what is changed: that takes -F."""
        if forced:
            return []
        if self.scope is not None:
            raise Refused("32 WrongScope %s" % self.scope[0])
        if self.is_changed():
            self.commit()
        return []


def first_word(part):
    return export_model.word_at(part, export_model.tokens(part))


def run(edit, line, is_whole=False):
    """What a line of subcommands shows, and the last of them, or None where there is none. A line whose tokens aren't
    right, or in which one stands before its end that may only end it, isn't begun. Else the subcommands run up to the
    first refusal, and what ran before it stands and is shown. A line that is all that its editor gets exits at its end,
    unless it ends with one of those that may only end it."""
    parts = export_model.subcommands(line)
    verbs = [first_word(part) for part in parts]
    if any(verb in ENDING for verb in verbs[:-1]):
        raise Refused("93 Usage")
    if is_whole and (not verbs or verbs[-1] not in ENDING):
        parts.append(b"exit")
    shown = []
    try:
        for part in parts:
            shown += edit.obey(export_model.command_of(part))
    except Refused as refused:
        refused.shown = shown
        raise
    return shown, verbs[-1] if verbs else None
