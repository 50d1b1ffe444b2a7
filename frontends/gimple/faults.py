"""What this front end refuses, with the place in the C source."""

from __future__ import annotations

from typing import TYPE_CHECKING

if TYPE_CHECKING:
    from .dump import Place


class Refusal(Exception):
    """A construct, an input or a program that can't be turned.

    The message begins with the place, where there is one.
    """

    def __init__(self, message: str, place: Place | str | None = None) -> None:
        super().__init__(f"{place}: {message}" if place else message)
