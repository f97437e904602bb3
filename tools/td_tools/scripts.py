"""Scripts in files: several in a row are one script, and a script may name its database.

A first line `// on db.td` says that a script is run on the database that db.td makes. The file is
looked for from the script's own folder, and may have such a line itself.
"""
import os
import re
import subprocess
from pathlib import Path

from .answers import Script
from .command import Failure, standard_input
from .programs import td

ON_DATABASE = re.compile(rb"(?:\xef\xbb\xbf)?[ \t]*//[ \t]*on[ \t]+([^\r\n]*\.td)[ \t\r]*(?:\n|\Z)")


def text_of(name):
    """The bytes of a file, or of standard input, whose name is `-`."""
    return standard_input().read() if name == "-" else Path(name).read_bytes()


def database_named(name, text):
    """The file of the database that the first line of a script names, if it names one."""
    found = ON_DATABASE.match(text)
    return str(Path(name).parent / os.fsdecode(found.group(1))) if found else None


def databases_under(name, text):
    """The files that a script is run on, each with its bytes: the lowest one comes first."""
    found, seen = [], {Path(name).resolve()}
    while (below := database_named(name, text)) is not None:
        if Path(below).resolve() in seen:
            raise Failure(f"{name}:1: // on {below} leads back to it")
        seen.add(Path(below).resolve())
        try:
            found.insert(0, (below, Path(below).read_bytes()))
        except OSError as error:
            raise Failure(f"{name}:1: // on {below}: {error.strerror}") from error
        name, text = found[0]
    return found


def script_of(names):
    """The script of files in a row. A database that they name comes before them, and comes once."""
    files = [(name, text_of(name)) for name in names]
    seen, databases = set(), []
    for name, text in files:
        for database in databases_under(name, text):
            place = Path(database[0]).resolve()
            if place not in seen:
                databases.append(database)
            seen.add(place)
        seen.add(Path(name).resolve())
    return Script(files, databases)


def dump_of(script):
    """The dump of the database that a script leaves, and whether a statement was refused."""
    ran = subprocess.run([td(), "dump"], input=script, stdout=subprocess.PIPE, check=False)
    if ran.returncode not in (0, 1):
        raise Failure(f"td ended with status {ran.returncode}")
    return ran.stdout.decode("utf-8"), ran.returncode == 1
