"""The options of `plan` that are about the page."""
import os
import stat

from ..faults import Fault, read_bytes

# What the page shows, or asks for, in a way of its own.
UNFIT = "output", "json", "html", "by", "why", "second", "fair", "workers"
LEAST_PASSWORD = 8


def add_words_of_page(words):
    words.add_argument("--serve", action="store_true", help="show the table and its plan in a browser of this machine, on a page where costs can be changed, and pairs fixed and forbidden; FILE may be left out then")
    words.add_argument("--host", metavar="NAME", help="for an office: the name or the address of this machine by which others reach the page; with --password-file")
    words.add_argument("--port", metavar="N", help="the port of the page; left out, one that is free")
    words.add_argument("--password-file", metavar="FILE", help="the file whose first line is the password that the page of --host asks for")


def look_at_words_of_page(words):
    """Options of the page go with --serve alone, and those that ask for a file or for another plan don't go with it."""
    if not words.serve:
        said = next((option for option in ("host", "port", "password_file") if getattr(words, option) is not None), None)
        if said:
            raise Fault(f"--{said.replace('_', '-')}: it is for a page in a browser; say --serve too")
        return
    unfit = next((option for option in UNFIT if getattr(words, option)), None)
    if unfit:
        raise Fault(f"--{unfit}: it doesn't go with --serve, whose page shows the plan and gives it as a file; leave it out")
    if words.file == "-":
        raise Fault("-: with --serve the table has to be a file, or is dropped on the page; name the file, or leave it out")
    if words.port is not None and not (words.port.isascii() and words.port.isdigit() and 1 <= int(words.port[:9]) <= 65_535):
        raise Fault(f"--port {words.port}: a whole number from 1 to 65,535 is wanted")
    if words.host is not None and words.password_file is None:
        raise Fault(f"--host {words.host}: others may reach the page then, so it has to ask for a password; say --password-file too")
    if words.host is None and words.password_file is not None:
        raise Fault(f"--password-file {words.password_file}: without --host the page is for this machine alone, and asks for no password; leave it out")


def password_of(file):
    """The password that stands in a file which its owner alone may read; None where no file is named."""
    if file is None:
        return None
    content = read_bytes(file)
    if os.stat(file).st_mode & (stat.S_IRWXG | stat.S_IRWXO):
        raise Fault(f"{file}: others may read it, and it holds a password; run `chmod 600 {file}`")
    try:
        password = (content.splitlines() or [b""])[0].decode("utf-8")
    except UnicodeDecodeError:
        raise Fault(f"{file}: the password in it is no UTF-8; write it anew") from None
    if len(password) < LEAST_PASSWORD:
        raise Fault(f"{file}: its first line has to be a password of at least {LEAST_PASSWORD} letters; write a longer one")
    return password
