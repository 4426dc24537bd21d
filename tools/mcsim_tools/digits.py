"""Whole numbers that a user wrote."""
from __future__ import annotations

import decimal
import re
from typing import Optional

# the longest decimal number that TOML has room for
MOST = 2**63 - 1
LONGEST = len(str(MOST))


def number(text: str, least: int = 0, most: int = MOST) -> Optional[int]:
    """Returns the number that decimal digits spell, or None for another text and for a number out of its range."""
    if not text.isascii() or not text.isdigit() or len(text.lstrip('0')) > LONGEST:
        return None
    found = int(text.lstrip('0') or '0')
    return found if least <= found <= most else None


# digits in groups, with decimals and a power of ten: 1_000_000, 1e6, 1.5e3
TYPED = re.compile(r'[0-9]+(?:_[0-9]+)*(?:\.[0-9]+(?:_[0-9]+)*)?(?:[eE][0-9]{1,2})?')


def typed(text: str) -> str:
    """Returns the digits of a whole number that a person may write shorter, as the launcher does; any other text stays."""
    if not text.isascii() or not TYPED.fullmatch(text):
        return text
    found = decimal.Decimal(text)
    return f'{found:f}'.partition('.')[0] if found == found.to_integral_value() else text
