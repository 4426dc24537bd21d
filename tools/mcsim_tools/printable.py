"""Text of others on its way to a terminal or a picture: a control character does nothing there."""
from __future__ import annotations

from typing import Optional

# characters at the end of a text that is cut: there stands what is allowed
END = 200


def printable(text: object, most: Optional[int] = None) -> str:
    """Returns a text of one line in which `?` stands for each character that is not printable. A text of more than `most` characters loses its middle."""
    whole = str(text)
    shown = whole if most is None or len(whole) <= most else f'{whole[:most - END]} .. {whole[-END:]}'
    return shown if shown.isprintable() else ''.join(one if one.isprintable() else '?' for one in shown)
