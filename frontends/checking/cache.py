"""A cache of shares, known by the contents of all that they were made of."""

from __future__ import annotations

import hashlib
import json
import os
from dataclasses import dataclass
from typing import TYPE_CHECKING

from gimple.faults import Refusal

from .facts import FORMAT, decoded, encoded
from .makers import build, compiler, sum_of_program, surroundings, version
from .shares import complete
from .sums import is_new, sum_of
from .writing import write_whole

if TYPE_CHECKING:
    from .compiling import Input
    from .shares import Making, Share


@dataclass(frozen=True)
class Cache:
    """A folder of shares.

    Of each source it has the names of the files that were read for it last, and its share for what
    these had. made_by: what all shares were made by.
    """

    folder: str
    made_by: str

    @staticmethod
    def of(folder: str, making: Making) -> Cache:
        """The cache in a folder, for shares that are made in one way."""
        by = [] if making.is_linked else [making.finder, sum_of_program(making.finder)]
        told = [FORMAT, version(), build(), compiler(), by, *surroundings()]
        told += [making.is_linked, making.shows_all, *making.held()]
        return Cache(folder, json.dumps(told))

    def place_of(self, *parts: object) -> str:
        """The path of what these parts tell apart, without its ending."""
        told = json.dumps([self.made_by, *parts]).encode("ascii")
        name = hashlib.sha256(told).hexdigest()
        return os.path.join(self.folder, name[:2], name[2:])

    def place_of_source(self, given: list[Input]) -> str:
        """The path of what is known of a source."""
        # names begin here where a database has its own folders
        here = [os.getcwd() for one in given if one.directory != "."]
        told = [list(vars(one).values()) for one in given]
        return self.place_of(told, here[:1], sum_of(given[0].name))

    def find(self, given: list[Input]) -> Share | None:
        """The share of a source, None where none is known of it as it is."""
        place = self.place_of_source(given)
        try:
            with open(place + ".files", encoding="ascii") as file:
                names = json.load(file)
            path = self.place_of(place, [[name, sum_of(name)] for name in names]) + ".facts"
            with open(path, "rb") as file:
                share = decoded(file.read(), path).share
        except (OSError, ValueError, TypeError, AttributeError, Refusal):
            return None  # what is damaged is made anew
        share.read = names
        return share

    def keep(self, given: list[Input], making: Making, share: Share) -> None:
        """Keeps a share, unless some file of it changed since this run began."""
        complete(share)
        if any(map(is_new, share.read)):
            return
        place = self.place_of_source(given)
        sums = [[name, sum_of(name)] for name in share.read]
        kept = {
            self.place_of(place, sums) + ".facts": encoded(share, making),
            place + ".files": json.dumps(share.read).encode("ascii"),
        }
        try:
            for path, data in kept.items():
                os.makedirs(os.path.dirname(path), exist_ok=True)
                write_whole(path, data)
        except OSError as fault:
            share.notes.append(f"{self.folder}: the cache can't be written: {fault.strerror}")
