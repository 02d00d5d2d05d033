"""A plain, slow model of the mounts of one zone: which there are, which are held, and the place of a path (mount(2),
umount2(2), lofs(4FS)).

Directories and paths are absolute and have no component `.`, `..` or empty one. A mount lies over a path where its
components are the first ones of the path, and of all that do so the one with most components counts. Each question
looks at every mount.
"""

import dataclasses

from trace_lines import Refused

MOST_MOUNTS = 128
MOST_PLACE = 4096


def components(path):
    return path.split("/")[1:] if path != "/" else []


def is_over(directory, path):
    """Whether a path is a directory or lies below it."""
    first = components(directory)
    return components(path)[:len(first)] == first


@dataclasses.dataclass
class Mount:
    """What is mounted, and whether the global zone holds it. A lofs special is a place of the global zone."""

    fstype: str
    special: str
    read_only: bool = False
    by_process: bool = False
    held: bool = False

    def place(self, rest):
        """The place of the path whose components below the directory are `rest`, each after one `/`. What isn't a place
        of the global zone shows its type; that belongs to the place, and counts in its length."""
        if self.fstype not in ("lofs", "root"):
            return "<%s:%s>%s" % (self.fstype, self.special, rest)
        return rest if self.special == "/" and rest else self.special + rest


class Mounts:
    """The mounts of a zone by their directories."""

    def __init__(self):
        self.by_directory = {}

    def mount(self, directory, mount):
        if directory in self.by_directory:
            raise Refused("EBUSY")
        if len(self.by_directory) == MOST_MOUNTS:
            raise Refused("71 TooManyMounts")
        self.by_directory[directory] = mount

    def unmount_by_process(self, directory):
        """Removes a mount that a process made, where nothing needs it."""
        if directory not in self.by_directory:
            raise Refused("EINVAL")
        if not self.by_directory[directory].by_process:
            raise Refused("EPERM")
        below = [other for other in self.by_directory if other != directory and is_over(directory, other)]
        if below or self.by_directory[directory].held:
            raise Refused("EBUSY")
        del self.by_directory[directory]

    def last(self):
        """The directory that is unmounted first as a zone goes down, the greatest in byte order, or None."""
        return max(self.by_directory, default=None)

    def is_held(self, directory):
        return self.by_directory[directory].held

    def remove(self, directory):
        del self.by_directory[directory]

    def set_held(self, directory, held):
        """Holds a free mount, or releases a held one."""
        if directory not in self.by_directory:
            raise Refused("99 NoMount")
        if self.by_directory[directory].held == held:
            raise Refused("96 HoldState")
        self.by_directory[directory].held = held

    def place(self, path, write=False):
        """Where a path lies in the global zone."""
        over = [directory for directory in self.by_directory if is_over(directory, path)]
        if not over:
            raise Refused("ENOENT")
        directory = max(over, key=lambda it: len(components(it)))
        mount = self.by_directory[directory]
        if write and mount.read_only:
            raise Refused("EROFS")
        place = mount.place("".join("/" + it for it in components(path)[len(components(directory)):]))
        if len(place) > MOST_PLACE:
            raise Refused("ENAMETOOLONG")
        return place

    def rows(self):
        """A line for each mount, in byte order of the directories."""
        return ["%s %s %s" % (directory, mount.fstype, "ro" if mount.read_only else "rw")
                for directory, mount in sorted(self.by_directory.items())]
