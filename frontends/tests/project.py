"""Makes projects of C files that share headers and macros, by a seed: `clusters` calls this.

Not verified. What holds of a place in a header differs from file to file: each reads other
variables of its headers, and sets other words for their preprocessor.
"""

from __future__ import annotations

import os
import random

HEADERS = 8
HEADER = """#ifndef SHARED_{0}_H
#define SHARED_{0}_H
{1}static int state_{0}, spare_{0};
#define LOW_{0}(x) ((x) & {2})
#define KEEP_{0}(x, y) ((y) = (x) + {2})
static inline void set_{0}(int x)
{{
    int twice = x * 2;
    state_{0} = x;
#ifdef SPARE_{0}
    spare_{0} = LOW_{0}(x);
#endif
}}
static inline int get_{0}(int x)
{{
    int result = 0, late;
    if (x > {2})
        return state_{0} + LOW_{0}(x);
#ifdef LATE_{0}
    result = x - 1;
    late = x;
#endif
    if (x > 1)
        result = x * 2 + LOW_{0}(x);
    return result + x * 2 + late;
}}
static inline int odd_{0}(int x)
{{
    int odd;
#ifdef LATE_{0}
    if (x > 1)
        odd = x;
#endif
    if (x > {2})
        odd = x * 2;
    return odd;
}}
static int spare_of_{0}(void)
{{
    return spare_{0};
}}
#endif
"""


class Project:
    """The files of a project by name, and the names of its C files."""

    def __init__(self, seed: int, count: int) -> None:
        self.random = random.Random(seed)
        self.files: dict[str, str] = {}
        for number in range(HEADERS):
            self.files[f"include/shared_{number}.h"] = self.header(number)
        self.sources = ["main.c"]
        for number in range(1, count):
            # one name has a blank, and names are not in the order of numbers
            name = f"part {number}.c" if number == 7 else f"parts/part_{number * 37 % 101}.c"
            self.files[name] = self.part(number)
            self.sources.append(name)
        self.files["main.c"] = self.main(count)

    def header(self, number: int) -> str:
        """A header, which may take in those before it."""
        taken_in = [other for other in range(number) if self.random.random() < 0.2]
        lines = "".join(f'#include "shared_{other}.h"\n' for other in taken_in)
        return HEADER.format(number, lines, self.random.randint(3, 9))

    def part(self, number: int) -> str:
        """A C file, with a function for main and some of its own."""
        chosen = self.random.sample(range(HEADERS), self.random.randint(1, 4))
        lines = [
            f"#define {word}_{header}"
            for header in chosen
            for word in ("SPARE", "LATE")
            if self.random.random() < 0.6
        ]
        lines += [f'#include "shared_{header}.h"' for header in chosen]
        lines += [f"int value_{number};", f"int part_{number}(int n)", "{", "    int kept = n;"]
        for header in chosen:
            lines += [f"    {call.format(header)};" for call in self.calls()]
            # to show its way takes one more run of tacview
            lines += ["    kept += odd_0(n);"] if header == 0 else []
        lines += ["    return kept;", "}"]
        if self.random.random() < 0.4:
            lines += [f"int unused_{number}(int n)", "{", f"    value_{number} = n;"]
            lines += ["    return n * 2 + (n * 2 > 3);", "}"]
        return "\n".join(lines) + "\n"

    def calls(self) -> list[str]:
        """What a function does with a header."""
        all_calls = ["set_{0}(n)", "kept += get_{0}(n)", "KEEP_{0}(n, kept)"]
        all_calls += ["kept += spare_of_{0}()", "kept = LOW_{0}(n)", "set_{0}(n + 1)"]
        return [call for call in all_calls if self.random.random() < 0.6]

    def main(self, count: int) -> str:
        """The file in which the program begins: it calls most parts, and reads some variables."""
        called = [number for number in range(1, count) if self.random.random() < 0.8]
        read = [number for number in range(1, count) if self.random.random() < 0.3]
        lines = [f"int part_{number}(int);" for number in called]
        lines += [f"extern int value_{number};" for number in read]
        lines += ["int main(int argc, char **argv)", "{", "    int sum = 0;"]
        lines += [f"    sum += part_{number}(argc);" for number in called]
        lines += [f"    sum += value_{number};" for number in read]
        return "\n".join([*lines, "    return sum;", "}"]) + "\n"

    def write(self, folder: str) -> None:
        """Writes all files below a folder."""
        for name, text in self.files.items():
            path = os.path.join(folder, name)
            os.makedirs(os.path.dirname(path), exist_ok=True)
            with open(path, "w", encoding="utf-8") as file:
                file.write(text)
