"""Files of a job's folder into a tar file and back. The folder is a stranger's: no link is followed, and nothing is read or written outside of it."""
from __future__ import annotations

import os
import posixpath
import re
import stat
import tarfile
from typing import Callable

from .refused import Refused

MOST_SIGNS = 200_000  # of all patterns without {a,b} that one may stand for


def normal(pattern: str, root: str) -> str:
    """A pattern of paths below a folder, as it is compared; refused where it leaves the folder."""
    if pattern.startswith(root + "/") or pattern == root:
        pattern = "." + pattern[len(root):]
    parts = [part for part in pattern.split("/") if part not in ("", ".")]
    if pattern.startswith("/") or ".." in parts:
        raise Refused(f"the path {pattern!r} is outside of the project's folder")
    return "/".join(parts)


def compiled(pattern: str) -> re.Pattern:
    """`*` and `?` stand for no slash, `**` for any folders, [a-z] for one of these, {a,b} for either."""
    try:
        return re.compile("|".join(map(_expression, _either(pattern))), re.DOTALL)
    except re.error as fault:
        raise Refused(f"the pattern {pattern!r} can't be read") from fault


def _either(pattern: str) -> list[list[str]]:
    """The patterns without {a,b} that one stands for, by their signs."""
    open_ones, found = [re.findall(r"\*\*/?|\[[!^]?\]?[^\]]*\]|.", pattern, re.DOTALL)], []
    while open_ones:
        signs = open_ones.pop()
        if "{" not in signs:
            found.append(signs)
            continue
        start = len(signs) - 1 - signs[::-1].index("{")
        if "}" not in signs[start:]:
            raise Refused(f"the pattern {pattern!r} can't be read")
        end = signs.index("}", start)
        cuts = [start, *(place for place in range(start, end) if signs[place] == ","), end]
        if (len(open_ones) + len(found) + len(cuts)) * len(signs) > MOST_SIGNS:
            raise Refused(f"a pattern of {len(pattern)} signs stands for too many others")
        open_ones += [signs[:start] + signs[left + 1:right] + signs[end + 1:] for left, right in zip(cuts, cuts[1:])]
    return found


def _expression(signs: list[str]) -> str:
    """The expression of a pattern without {a,b}. What follows a `*` or a `**` is looked for once where another one comes behind it: its first
    place leaves most for the rest. So no name takes long to compare."""
    groups, before = [("", [""])], "/"  # of what stands between `**`: what leads to it, and what stands between its `*`
    for sign in signs:
        if sign == "**/" and before.endswith("/"):
            groups.append(("(?:.*?/)??", [""]))
        elif sign.startswith("**"):
            groups.append((".*?", [sign[2:]]))
        elif sign == "*":
            groups[-1][1].append("")
        else:
            groups[-1][1][-1] += _sign(sign)
        before = sign
    texts = [lead + first + "".join(f"(?>[^/]*?{chunk})" for chunk in chunks) for lead, (first, *chunks) in groups[:-1]]
    lead, (first, *chunks) = groups[-1]
    last = f"[^/]*{chunks.pop()}" if chunks else ""
    return "".join(f"(?>{text})" for text in texts) + lead + first + "".join(f"(?>[^/]*?{chunk})" for chunk in chunks) + last


def _sign(sign: str) -> str:
    if sign == "?":
        return "[^/]"
    if len(sign) == 1:
        return re.escape(sign)
    negated = sign[1] in "!^"
    inside = re.sub(r"([\\\[\]&~|])", r"\\\1", sign[1 + negated:-1])
    return f"(?!/)[{'^' * negated}{inside}]"


def matching(root: str, patterns: list[str], excluded: list[str], check: Callable[[], None]) -> list[str]:
    """The paths below a folder that patterns take: what matches, and all below a folder that does; but none of `.git`."""
    if os.path.islink(root):
        raise Refused("the project's folder is a link")
    without = [compiled(normal(pattern, root)) for pattern in excluded]
    found = set()
    for pattern in patterns:
        whole = normal(pattern, root)
        fixed = []
        for part in whole.split("/")[:-1]:
            if re.search(r"[*?\[{]", part):
                break
            fixed.append(part)
        looked = compiled(whole) if whole else None
        if fixed[:1] != [".git"]:
            _walk(root, "/".join(fixed), looked is None, looked, found, check)
    return sorted(name for name in found if not any(it.fullmatch(name) for it in without))


def _walk(root: str, folder: str, taken: bool, looked: re.Pattern | None, found: set[str], check: Callable[[], None]) -> None:
    if _through_link(root, folder):
        return
    try:
        entries = list(os.scandir(os.path.join(root, folder)))
    except OSError:
        return
    for entry in entries:
        check()
        name = posixpath.join(folder, entry.name)
        if name == ".git":
            continue
        takes = taken or bool(looked and looked.fullmatch(name))
        if takes:
            found.add(name)
        if entry.is_dir(follow_symlinks=False):
            _walk(root, name, takes, looked, found, check)


def _through_link(root: str, name: str) -> bool:
    """Whether a path below a folder, or one above it there, is a link or no folder."""
    place = root
    for part in name.split("/") if name else []:
        place = os.path.join(place, part)
        if not os.path.isdir(place) or os.path.islink(place):
            return True
    return False


def pack(root: str, names: list[str], path: str, limit: int, check: Callable[[], None]) -> int:
    """Writes files into a tar file, and answers how many it has; refused where they are over a limit."""
    size = count = 0
    with tarfile.open(path, "w", format=tarfile.PAX_FORMAT) as tar:
        for name in names:
            check()
            place = os.path.join(root, name)
            info = os.lstat(place)
            member = tarfile.TarInfo(name)
            member.mode, member.mtime = stat.S_IMODE(info.st_mode) & 0o777, info.st_mtime
            count += stat.S_ISLNK(info.st_mode) or stat.S_ISREG(info.st_mode)
            if stat.S_ISDIR(info.st_mode):
                member.type = tarfile.DIRTYPE
                tar.addfile(member)
            elif stat.S_ISLNK(info.st_mode):
                member.type, member.linkname = tarfile.SYMTYPE, os.readlink(place)
                tar.addfile(member)
            elif stat.S_ISREG(info.st_mode):
                size += info.st_size
                if size > limit:
                    raise Refused(f"the files have over {limit} bytes")
                member.size = info.st_size
                with open(os.open(place, os.O_RDONLY | os.O_NOFOLLOW), "rb") as file:
                    tar.addfile(member, file)
    return count


def unpack(path: str, root: str, check: Callable[[], None]) -> int:
    """Lays the files of a tar file below a folder, over those that are there; answers how many."""
    try:
        with tarfile.open(path, "r") as tar:
            return sum(_lay(tar, member, root, check) for member in tar)
    except tarfile.TarError as fault:
        raise Refused(f"{path} can't be read: {fault}") from fault


def _lay(tar: tarfile.TarFile, member: tarfile.TarInfo, root: str, check: Callable[[], None]) -> int:
    """Lays one file, or makes one folder; answers how many files that are."""
    check()
    name = normal(member.name, root)
    _make_folders(root, posixpath.dirname(name))
    place = os.path.join(root, name)
    if member.isdir():
        _make_folders(root, name)
        os.chmod(place, member.mode & 0o777 | 0o700)
        return 0
    if os.path.isdir(place) and not os.path.islink(place):
        raise Refused(f"{name} is to be a file, and is a folder")
    if os.path.lexists(place):
        os.unlink(place)
    if member.issym():
        os.symlink(member.linkname, place)
    elif member.isfile():
        _write(tar, member, place)
    return 1


def _make_folders(root: str, name: str) -> None:
    place = root
    for part in name.split("/") if name else []:
        place = os.path.join(place, part)
        if os.path.islink(place) or (os.path.lexists(place) and not os.path.isdir(place)):
            raise Refused(f"{name} is to be a folder, and is something else")
        if not os.path.isdir(place):
            os.mkdir(place)
            os.chmod(place, 0o755)


def _write(tar: tarfile.TarFile, member: tarfile.TarInfo, place: str) -> None:
    source = tar.extractfile(member)
    with open(os.open(place, os.O_WRONLY | os.O_CREAT | os.O_EXCL | os.O_NOFOLLOW, 0o600), "wb") as file:
        while data := source.read(1_048_576):
            file.write(data)
    os.chmod(place, member.mode & 0o777)
    os.utime(place, (member.mtime, member.mtime))
