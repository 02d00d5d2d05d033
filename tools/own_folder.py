"""A folder of its own for each run of the native program, which keeps its zones in `zones.store` in the folder it runs in."""

import pathlib
import subprocess
import tempfile

# In memory, where there is such a folder: the program waits for each record to be on its disk.
IN_MEMORY = "/dev/shm" if pathlib.Path("/dev/shm").is_dir() else None
NAME = "zones.store"
SECONDS = 600


def own_folder():
    """A new folder, for a `with`, at whose end it goes."""
    return tempfile.TemporaryDirectory(prefix="zones-", dir=IN_MEMORY)


def image(folder):
    """The bytes of the store in a folder."""
    file = pathlib.Path(folder) / NAME
    return file.read_bytes() if file.exists() else b""


def ran(program, command, data, folder):
    """The status and both texts of the program with the words of a command, over an input and in a folder."""
    done = subprocess.run([pathlib.Path(program).resolve(), *command.split(" ")], input=data, capture_output=True,
                          timeout=SECONDS, cwd=folder)
    return done.returncode, done.stdout, done.stderr
