"""Whose the files of a session are, whoever runs a tool."""
from __future__ import annotations

import contextlib
import grp
import os
import pathlib
import pwd
from collections.abc import Iterator

from .versions import NotALedger

FRONT = pathlib.Path("/etc/examoffice/front")


def existing(path: pathlib.Path) -> pathlib.Path:
    """Returns a folder, or the nearest one above it that is there and can be seen."""
    path = path.absolute()
    return path if os.path.exists(path) else existing(path.parent)


def owner_of(path: pathlib.Path) -> str:
    with contextlib.suppress(KeyError):
        return pwd.getpwuid(path.stat().st_uid).pw_name
    return f"{path.stat().st_uid}"


def become_keeper(folder: pathlib.Path) -> None:
    """Goes on as the user to whom a session's folder belongs, if this is root's run; refuses
    anybody else who isn't that user, before anything is done."""
    place = existing(folder)
    found = place.stat()
    if os.geteuid() == found.st_uid:
        return
    if os.geteuid() != 0:
        raise NotALedger(f"{place} belongs to {owner_of(place)}: run this as that user, or as root")
    with contextlib.suppress(KeyError):
        os.initgroups(pwd.getpwuid(found.st_uid).pw_name, found.st_gid)
    os.setegid(found.st_gid)
    os.seteuid(found.st_uid)
    os.umask(0o027)


def faults_of_writing(folder: pathlib.Path) -> list[str]:
    """Returns why the user who runs a tool can't write into a folder."""
    place = existing(folder)
    return [] if os.access(place, os.W_OK | os.X_OK) else [
        f"{place} belongs to {owner_of(place)}, and you may not write there: run this as root"]


@contextlib.contextmanager
def as_caller() -> Iterator[None]:
    """Does something as the user who runs a tool: reads a file of theirs, or writes the front's."""
    user, group = os.geteuid(), os.getegid()
    os.seteuid(os.getuid())
    os.setegid(os.getgid())
    try:
        yield
    finally:
        os.setegid(group)
        os.seteuid(user)


def group_of_front(folder: pathlib.Path, usual: str) -> int | None:
    """Returns the group that reads the front's files of users: that of what is there, or of the
    package's agent, or the usual one."""
    for path in (folder / "callers", folder / "users"):
        if path.exists():
            return path.stat().st_gid
    for name in ("examoffice-agent", usual) if folder == FRONT else (usual,):
        with contextlib.suppress(KeyError):
            return grp.getgrnam(name).gr_gid
    return None
