"""What goes wrong."""
from __future__ import annotations


class Fault(ValueError):
    """The text is not a system. This is the line of its first fault, such as `unknown name at thread 1 context`."""
