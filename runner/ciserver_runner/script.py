"""The text that a shell runs for a job."""
from __future__ import annotations

import re
import shlex

from .refused import Refused

DEEPEST = 10
LONGEST = 1_000_000

# The script comes on standard input: its values are in no file, and on no command line that others see.
READ_ALL = 'eval "$(cat)"'


def in_bash_or_sh(began: str) -> str:
    """Has bash read it where there is one, and makes a file first: it tells that a shell began."""
    return f"(: > {shlex.quote(began)}) 2> /dev/null; if command -v bash > /dev/null; then exec bash -c {shlex.quote(READ_ALL)}; fi; {READ_ALL}"


def text_of(variables: dict[str, str], lines: list[str]) -> bytes:
    """Exports the variables, but for those that are the shell's own, and runs the lines until one fails; each is printed before it runs. Who opens
    standard input again finds nothing of all this."""
    text = ["exec < /dev/null"]
    text += [f"command export {name}={_quoted(value)} 2> /dev/null || :" for name, value in variables.items()]
    text += ["set -e", "if (set -o pipefail) 2> /dev/null; then set -o pipefail; fi"]
    for line in lines:
        text += [f"printf '$ %s\\n' {_quoted(line.rstrip())}", f"eval {_quoted(line)}"]
    return "\n".join(text).encode(errors="replace") + b"\n"


def expanded(text: str, variables: dict[str, str]) -> str:
    """A text with the values of the variables that it names, as $NAME or ${NAME}, and what these name, ten deep; `$$` is a dollar."""
    count = 0

    def put_in(part: str, within: tuple[str, ...]) -> str:
        def value(match: re.Match) -> str:
            nonlocal count
            name = match[1] or match[2]
            count += 1 + len(variables.get(name, ""))
            if count > LONGEST:
                raise Refused(f"a value is too long with those of the variables that it names: {text[:40]!r}")
            if match[0] == "$$":
                return "$"
            if name in within or len(within) == DEEPEST:
                return match[0]
            return put_in(variables.get(name, ""), (*within, name))
        return re.sub(r"\$(?:\$|([A-Za-z_]\w*)|\{([A-Za-z_]\w*)\})", value, part, flags=re.ASCII)

    return put_in(text, ())


def _quoted(text: str) -> str:
    return "'" + text.replace("'", "'\\''") + "'"
