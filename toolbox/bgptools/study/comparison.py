"""What differs between an archive and a run of its study here, each told by file and line."""
from __future__ import annotations

from typing import Dict, List, Optional

from ..program.language import escaped

LONGEST = 100


def differences(archived: Dict[str, bytes], made: Dict[str, bytes]) -> List[str]:
    """A line for each file that differs, by path."""
    found = []
    for path in sorted(set(archived) | set(made)):
        if path not in made:
            found.append("%s: the archive has it, and this run has not" % path)
        elif path not in archived:
            found.append("%s: this run has it, and the archive has not" % path)
        elif archived[path] != made[path]:
            found.append(_where(path, archived[path], made[path]))
    return found


def _where(path: str, one: bytes, other: bytes) -> str:
    """The first line in which two files differ."""
    lines = [content.split(b"\n") for content in (one, other)]
    at = next((at for at, both in enumerate(zip(*lines)) if both[0] != both[1]), min(map(len, lines)))
    first, second = (_shown(each[at] if at < len(each) else None) for each in lines)
    return "%s:%d: the archive has %s, and this run has %s" % (path, at + 1, first, second)


def _shown(line: Optional[bytes]) -> str:
    if line is None:
        return "no such line"
    text = escaped(line.decode("utf-8", "replace"))
    return "`%s%s`" % (text[:LONGEST], ".." if len(text) > LONGEST else "")
