"""A room of its own for each library that is proved, since `rt` keeps the folders of a crate and of all below it to
itself.

Two libraries that stand on one would wait for each other otherwise. A room lies below out/rooms, with links to the
sources and to the libraries that are built; what was proved in it comes back into the crate's own out/.
"""
import os
import shutil

from .crates import PARTS, ROOT, all_below

ROOMS = ROOT / "out" / "rooms"


def link(source, target):
    """A second name of the file, or a copy where the file system has no such names."""
    try:
        os.link(source, target)
    except OSError:
        shutil.copy2(source, target)


def lay_out(crate, crates):
    """Makes the room of a library: its sources, those of all below it, and what of these is built. Gives the crate's
    folder in it."""
    room = ROOMS / crate.name
    room.mkdir(parents=True)
    names = {crate.name, *all_below(crate, crates)}
    lines = (ROOT / "crates.txt").read_text().splitlines()
    own = [line for line in lines if line.partition(":")[0].split()[:1] in [[name] for name in names]]
    (room / "crates.txt").write_text("".join(f"{line}\n" for line in own))
    for name in names:
        source, target = ROOT / "crates" / name, room / "crates" / name
        for part in PARTS:
            if (source / part).is_dir():
                shutil.copytree(source / part, target / part, copy_function=link)
        if name != crate.name:
            shutil.copytree(source / "out" / "rlib", target / "out" / "rlib", copy_function=link)
    inside = room / "crates" / crate.name
    move(crate.folder / "out", inside / "out")
    return inside


def leave(crate):
    """Takes what was proved in the room of a library back, and the room away."""
    move(ROOMS / crate.name / "crates" / crate.name / "out", crate.folder / "out")
    shutil.rmtree(ROOMS / crate.name, ignore_errors=True)


def move(source, target):
    """Moves what was proved, where there is something, in the place of what was there."""
    if source.is_dir():
        shutil.rmtree(target, ignore_errors=True)
        target.parent.mkdir(parents=True, exist_ok=True)
        source.rename(target)


def clear():
    """Takes the rooms away that a build has left which was cut off, and keeps what had been proved in them."""
    for room in ROOMS.glob("*"):
        own = ROOT / "crates" / room.name / "out"
        if not own.exists():
            move(room / "crates" / room.name / "out", own)
        shutil.rmtree(room, ignore_errors=True)
