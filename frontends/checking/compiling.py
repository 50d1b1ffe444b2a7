"""Running gcc for its dumps: which words go to it, and what it is asked for."""

import os
import re
import subprocess
from collections.abc import Iterator
from dataclasses import dataclass

from gimple import inputs, symbols
from gimple.faults import Refusal

ASKED = [
    "-O0",
    "-g0",
    "-fdump-tree-lower-raw-lineno-uid",
    "-fdump-tree-ssa-lineno-uid-blocks",
    "-fdump-ipa-cgraph",
    "-fdump-tree-original",
]
# Has gcc end behind the dumps: it then writes no machine code, which takes more than half its time.
# A gcc that was built without link-time optimisation says so, and writes that code.
ENDING_EARLY = ["-flto", "-fno-fat-lto-objects"]
NO_EARLY_END = "LTO support has not been enabled"
# Options with a word behind them: those that go to gcc, those that are left out, since what gcc
# writes is not wanted, and those of other compilers.
WITH_WORD = frozenset(
    """-I -D -U -include -isystem -iquote -idirafter -imacros -isysroot -iprefix
-iwithprefix -iwithprefixbefore -imultilib -std -Xassembler -A --param -B -L -l -T -u -z -e
-Xlinker -specs --sysroot""".split()
)
LEFT_OUT_WITH_WORD = frozenset(
    """-o -MF -MT -MQ -aux-info -dumpbase -dumpdir -dumpbase-ext
-wrapper""".split()
)
OTHERS_WITH_WORD = frozenset(
    """-target -Xclang -mllvm -Xanalyzer -arch -framework -iframework
-iwithsysroot -ivfsoverlay -resource-dir -Xopenmp-target""".split()
)
LEFT_OUT = re.compile(
    r"""-(?:c|S|pipe|pg|p|s|v|g.*|O.*|o.+|MD|MMD|MP|MG|MF.+|MT.+|MQ.+|save-temps.*
|-coverage|coverage|ftest-coverage|fprofile.*|fauto-profile.*|fbranch-probabilities|fsanitize.*
|flto.*|fopenmp.*|fopenacc.*|finstrument-functions.*|fdump-.*|fstack-protector.*|ftime-report|Q
|\#\#\#)$""",
    re.VERBOSE,
)
OTHER_WORK = frozenset(["-E", "-M", "-MM", "-fsyntax-only", "-###", "--help", "--version"])
DOUBLE = re.compile(r"--(?:sysroot|param|std|coverage|include|define-macro|specs)(?:=|$)")
PASSED_OVER = re.compile(r".*\.(?:o|a|so(?:\.\d+)*|lo|s|S|ld|map)$")
# Words for the preprocessor that ask for a file, with the file behind some of them.
DEPENDENCIES = frozenset(["-MD", "-MMD", "-MF", "-MT", "-MQ", "-MP", "-MG", "-M", "-MM"])
DEPENDENCIES_ALONE = frozenset(["-MP", "-MG", "-M", "-MM"])
# As gcc itself, check-c tells nothing of these.
SYSTEM_HEADERS = ("/usr/include/", "/usr/lib/", "/usr/local/include/")
# What `-H` has gcc say of each header that it reads.
HEADER = re.compile(r"^(?:\.+|[x!]) (.*)\n?", re.MULTILINE)
# What gcc says of a word that it does not know.
UNKNOWN = re.compile(
    r"(?:unrecognized command-line option|unrecognized argument in option"
    r"|cannot read spec file) [‘'](?P<word>[^’']+)[’']"
    r"|bad value [‘'](?P<value>[^’']+)[’'] for [‘'](?P<switch>-[^’']+)[’'] switch"
    r"|[‘'](?P<other>-[^’']+)[’'] is not supported by this configuration"
)


@dataclass(frozen=True)
class Input:
    """A C file with the words that gcc takes for it.

    options: those of a compilation database; words: those of the command. directory: the folder
    that names begin at, '.' where a word named it. left_out: what gcc would not know.
    """

    file: str
    options: tuple[str, ...] = ()
    directory: str = "."
    words: tuple[str, ...] = ()
    left_out: tuple[str, ...] = ()

    @property
    def name(self) -> str:
        """What the file is called in messages."""
        return self.shown(self.file)

    def shown(self, name: str) -> str:
        """What a file of gcc's is called in messages.

        As it was named, or else from here where it is below this folder.
        """
        if self.directory == ".":
            return os.path.normpath(name) if "/../" in name else name
        path = os.path.normpath(os.path.join(self.directory, name))
        here = os.getcwd() + os.sep
        return path.removeprefix(here)


class BadWords(Exception):
    """Words that the command doesn't take."""


class Unusable(Exception):
    """Files of facts that can't be used, with what is to be said of each."""

    def __init__(self, faults: list[str]) -> None:
        super().__init__("; ".join(faults))
        self.faults = faults


def take_option(word: str, rest: Iterator[str], options: list[str]) -> bool:
    """Takes in a word of gcc's, and the one behind it where that belongs to it.

    Answers whether it is one.
    """
    if word in OTHER_WORK:
        raise BadWords(f"{word} has gcc write no code, so there is nothing to tell")
    if word == "-x" or word.startswith("-x") and len(word) > 2:
        language = following(word, rest) if word == "-x" else word[2:]
        if language not in ("c", "none"):
            raise BadWords(f"-x {language}: only C is taken")
    elif word in LEFT_OUT_WITH_WORD:
        following(word, rest)
    elif word == "-Xpreprocessor":
        take_for_preprocessor(rest, options)
    elif word.startswith("-Wp,"):
        options += without_dependencies(word)
    elif word in WITH_WORD:
        options += [word, following(word, rest)]
    elif LEFT_OUT.match(word):
        pass
    elif word.startswith("-") and (not word.startswith("--") or DOUBLE.match(word)):
        options.append(word)
    else:
        return False
    return True


def take_for_preprocessor(rest: Iterator[str], options: list[str]) -> None:
    """Takes in a word behind `-Xpreprocessor`; those that ask for a file are left out."""
    word = following("-Xpreprocessor", rest)
    if word not in DEPENDENCIES:
        options += ["-Xpreprocessor", word]
    elif word not in DEPENDENCIES_ALONE:
        if following(word, rest) != "-Xpreprocessor":
            raise BadWords(f"-Xpreprocessor {word} takes a word behind a further -Xpreprocessor")
        following("-Xpreprocessor", rest)


def without_dependencies(word: str) -> list[str]:
    """A word `-Wp,..` without those for the preprocessor that ask for a file."""
    kept, rest = [], iter(word.split(",")[1:])
    for part in rest:
        if part not in DEPENDENCIES:
            kept.append(part)
        elif part not in DEPENDENCIES_ALONE:
            next(rest, None)
    return [",".join(["-Wp", *kept])] if kept else []


def following(word: str, rest: Iterator[str]) -> str:
    """The word behind an option."""
    found = next(rest, None)
    if found is None:
        raise BadWords(f"{word} takes a word behind it")
    return found


# The words of databases that gcc did not know.
unknown: set[str] = set()


def run_gcc(given: Input, folder: str) -> str | None:
    """Has gcc dump a file's code into a new folder.

    Answers the path of the dump, or None where there is no function.
    """
    os.mkdir(folder)
    dump_into(given, folder, "-ftoplevel-reorder")
    for table in dumps_in(folder, ".cgraph"):
        if symbols.loses_section(inputs.read_text(table)):
            # what such a variable leads to is told where gcc keeps all, and then not which it
            # would keep by itself
            os.rename(table, os.path.join(folder, "c.reordered"))
            dump_into(given, folder, "-fno-toplevel-reorder")
    return next(iter(dumps_in(folder, ".lower")), None)


def left_out(given: Input) -> list[str]:
    """The words of a database that were left out for a file, as gcc does not know them."""
    return [*given.left_out, *(word for word in given.options if word in unknown)]


def files_read(given: Input, folder: str) -> list[str]:
    """The files that gcc read for its dumps in a folder, those of the system too, as they are
    called in messages.
    """
    found = [given.name]
    for sources in dumps_in(folder, ".sources"):
        known = symbols.Symbols()
        symbols.read_sources(inputs.read_text(sources), known, given.shown)
        found += known.sources
    for headers in dumps_in(folder, ".headers"):
        found += map(given.shown, inputs.read_text(headers).splitlines())
    return list(dict.fromkeys(found))


def dump_into(given: Input, folder: str, order: str) -> None:
    """Runs gcc for a file's dumps in a folder, without the words of a database that it refuses.

    The headers that it read stand in a file there too.
    """
    written = ["-o", os.path.join(folder, "out.s"), "-dumpdir", folder + "/", "-dumpbase", "c"]
    written += ["-aux-info", os.path.join(folder, "c.aux")]
    written += ["-H", "-MMD", "-MF", os.path.join(folder, "c.sources")]
    while True:
        options = [word for word in given.options if word not in unknown]
        asked = ["-S", "-w", *options, *given.words, *ASKED, *ENDING_EARLY, order, *written]
        done = run([*asked, given.file], given.directory)
        if not done.returncode:
            headers = "".join(f"{name}\n" for name in HEADER.findall(done.stderr))
            with open(os.path.join(folder, "c.headers"), "wb") as file:
                file.write(headers.encode("utf-8", "surrogateescape"))
            return
        said = HEADER.sub("", done.stderr)
        if ENDING_EARLY and NO_EARLY_END in said:
            ENDING_EARLY.clear()
            continue
        refused = {word for word in options if is_refused(word, said)}
        if not refused:
            told = said.strip().splitlines()
            status = f"status {done.returncode}"
            first = next((line for line in told if "error" in line), told[0] if told else status)
            raise Refusal(f"gcc failed: {first}", given.shown(given.file))
        unknown.update(refused)


def gcc() -> str:
    """The compiler that is run."""
    return os.environ.get("GCC", "gcc")


def run(words: list[str], directory: str) -> subprocess.CompletedProcess[str]:
    """Runs gcc in a folder."""
    try:
        return subprocess.run(
            [gcc(), *words],
            cwd=directory,
            capture_output=True,
            encoding="utf-8",
            errors="surrogateescape",
            check=False,
        )
    except OSError as fault:
        raise Refusal(f"{fault.filename or gcc()}: {fault.strerror}") from None


def is_refused(word: str, said: str) -> bool:
    """Whether gcc said that it does not know a word."""
    for found in UNKNOWN.finditer(said):
        if found["value"]:
            if word.endswith("=" + found["value"]) and word[0] == "-":
                return True
        elif word in (found["word"], found["other"]) or word.endswith(f"specs={found['word']}"):
            return True
    return False


def dumps_in(folder: str, ending: str) -> list[str]:
    """The paths of the dumps of a kind in a folder."""
    return [os.path.join(folder, name) for name in os.listdir(folder) if name.endswith(ending)]
