"""The words of the command check-c."""

from __future__ import annotations

import os
from collections.abc import Iterator

from .compiling import PASSED_OVER, BadWords, following, take_option
from .remark import KINDS
from .responses import expanded

HELP = """usage: check-c [OPTION ..] [GCC OPTION ..] FILE.c ..
       check-c [OPTION ..] -p compile_commands.json [FILE.c ..]
       check-c [OPTION ..] [GCC OPTION ..] --emit FILE.facts FILE.c
       check-c [OPTION ..] --merge FILE.facts ..

Runs gcc on C files, makes programs of them, and writes tacflow's remarks on these to standard
output, as a compiler writes warnings. Each file is a program by itself, unless --together or
--whole says otherwise. Not verified; docs/C.md says what it claims.

  --kinds LIST       what is told, with commas between: all, or some of
%s
  --whole            these files are the whole program but for the C library: nothing else names
                     their variables and functions
  --together         these files are parts of one program
  --executions       tell what holds on executions, by taclint in place of tacview: also dead
                     assignments that only code which nothing leads to would hold back
  -p PATH            a compilation database, or the folder that has it: its C files, or those
                     named, with its options
  -j N               up to N processes
  --format FORM      text (the default), json (an object a line), sarif (SARIF 2.1.0) or html (a
                     page that shows the sources with the remarks)
  --baseline FILE    tell only what is not in FILE, which --write-baseline wrote
  --write-baseline FILE
                     write what is told to FILE, for a later --baseline
  --since REV        tell only of lines that `git diff REV` says changed
  --error            status 1 where there are remarks
  --emit FILE        write the facts of one C file to FILE, and tell nothing
  -MD FILE           with --emit: write to FILE for make and ninja which files were read
  --merge            the files named are those that --emit wrote: tell what one run over all their
                     C files tells, with the words of that run but for gcc's; with -p, see that each
                     C file of the database is there
  --cache FOLDER     keep there what came of each C file, and take it from there while all that was
                     read for it is as it was
  --cluster ADDRESS  have the workers of a Dask scheduler do the work
  --all              also remarks on what has no name in the source (gcc's temporaries, address
                     arithmetic), on arguments, and on jumps
  --keep FOLDER      leave the program, its map and the answer to it there; of several programs the
                     last one's
  --verbose          tell too which words of a database were left out, since gcc does not know them
  --version          tells the version
  --help, -h         tells this, and ends

A word @FILE stands for the words in FILE, which may be in quotes.

Options of gcc's go to gcc, but for those that ask for files, for optimisation or for checks of a
run. A comment `tacflow: ignore dead` silences remarks of a kind on its line, or on the next one
where it stands by itself; so do NOLINT, NOLINTNEXTLINE and `cppcheck-suppress unreadVariable`.
NO_COLOR takes the colours away, TACVIEW=/path/to/program another program in place of ../tacview,
TACLINT in place of ../taclint, GCC=/path/to/gcc another compiler.

Status: 0 where the remarks were written, 1 where there are some under --error, 2 for bad words, 3
where a file could not be analysed, a cluster not be used, or the remarks not be written; standard
error says why.
"""
FLAGS = ("--all", "--error", "--executions", "--verbose", "--whole", "--together", "--merge")
VALUES = (
    "--keep",
    "--kinds",
    "--format",
    "--baseline",
    "--write-baseline",
    "--since",
    "--emit",
    "--cache",
    "--cluster",
    "-p",
    "-j",
)
# Words that have no use beside others: --emit tells nothing, and nothing is left where nothing is
# analysed.
TOGETHER = {
    "--emit": (
        "--merge",
        "--error",
        "--verbose",
        "--format",
        "--baseline",
        "--write-baseline",
        "--since",
    ),
    "--cache": ("--merge", "--keep"),
    "--cluster": ("--merge", "--emit"),
}
FORMATS = ("text", "json", "sarif", "html")


def help_text() -> str:
    """The help, with the kinds."""
    rows = [
        f"                       {name:<13} {kind.says}{' (default)' if kind.is_told else ''}"
        for name, kind in KINDS.items()
    ]
    return HELP % "\n".join(rows)


class Words:
    """The words of the command."""

    def __init__(self, words: list[str]) -> None:
        self.flags = dict.fromkeys(FLAGS, False)
        self.values: dict[str, str | None] = dict.fromkeys(VALUES)
        self.files: list[str] = []
        self.options: list[str] = []
        words = list(expanded(words))
        self.flags["--merge"] = "--merge" in words  # it says what the other words are
        if any(word.partition("=")[0] == "--emit" for word in words):
            self.values["-MD"] = None  # else it is gcc's, without a word behind it
        rest = iter(words)
        for word in rest:
            self.take(word, rest)
        self.kinds = self.chosen_kinds()
        self.processes = self.number()
        self.refuse_what_is_not_together()

    def refuse_what_is_not_together(self) -> None:
        """Refuses words that do not go together."""
        if self.values["--format"] not in (None, *FORMATS):
            raise BadWords(f"--format is one of {', '.join(FORMATS)}")
        if self.flags["--whole"] and self.flags["--together"]:
            raise BadWords("--whole says more than --together: give one of them")
        for word, others in TOGETHER.items():
            for other in others:
                if self.has(word) and self.has(other):
                    raise BadWords(f"{other} is of no use with {word}")
        for word in ("--merge", "--cluster"):
            if self.has(word) and not self.is_linked and self.has("--keep"):
                told = f"--keep is of no use with {word}, but where sources are one program"
                raise BadWords(told)
        if self.flags["--merge"] and self.options:
            raise BadWords(f"{self.options[0]} is for gcc: give it to --emit")
        if not self.files and (self.flags["--merge"] or not self.values["-p"]):
            what = "file of facts" if self.flags["--merge"] else "C file"
            raise BadWords(f"no {what} is named")

    def has(self, word: str) -> bool:
        """Whether a word of the command's own was given."""
        return self.flags.get(word, False) or self.values.get(word) is not None

    @property
    def is_linked(self) -> bool:
        """Whether the files are one program."""
        return self.flags["--whole"] or self.flags["--together"]

    def take(self, word: str, rest: Iterator[str]) -> None:
        """Takes in a word, and the one behind it where that belongs to it."""
        name, equals, value = word.partition("=")
        if word in self.flags:
            self.flags[word] = True
        elif word in self.values or name in self.values and name.startswith("--") and equals:
            if self.values[name] is not None:
                raise BadWords(f"{name} is given twice")
            value = value if equals else following(word, rest)
            if name == "-MD" and value.startswith("-"):
                raise BadWords("-MD takes the name of a file behind it, where there is --emit")
            self.values[name] = value
        elif word.startswith("-j"):
            self.values["-j"] = word[2:]
        elif take_option(word, rest, self.options):
            pass
        elif word.startswith("-"):
            raise BadWords(f"{word} is no option")
        elif self.flags["--merge"]:
            self.files.append(word)
        elif word.endswith((".c", ".i")):
            self.take_file(word)
        elif not PASSED_OVER.match(word):
            raise BadWords(f"{word} is no C file: its name ends with .c")

    def take_file(self, word: str) -> None:
        """Takes in a C file."""
        if set(word) & set('[]"<>\t\n'):
            raise BadWords(
                f"{word}: gcc's dumps can't be read where a file's name has brackets, "
                "quotes or tabs"
            )
        if os.path.isdir(word):
            raise BadWords(f"{word} is a folder")
        self.files.append(word)

    def chosen_kinds(self) -> frozenset[str]:
        """The kinds that are told."""
        told = self.values["--kinds"]
        if told is None:
            return frozenset(name for name, kind in KINDS.items() if kind.is_told)
        names = [name.strip() for name in told.split(",")]
        wrong = [name for name in names if name not in KINDS and name != "all"]
        if wrong:
            raise BadWords(f"{wrong[0] or 'nothing'} is no kind: {', '.join(KINDS)} or all")
        return frozenset(KINDS if "all" in names else names)

    def number(self) -> int:
        """How many processes there may be."""
        told = self.values["-j"]
        if told is None:
            return 1
        if not told.isascii() or not told.isdigit() or not 1 <= int(told) <= 1024:
            raise BadWords("-j takes a number from 1 to 1024")
        return int(told)
