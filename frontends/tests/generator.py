"""Random C programs that end, do nothing undefined and print what they compute. Not verified."""

import random

HEAD = """#include <setjmp.h>
#ifndef KEPT
#define KEPT
#endif
#define LOW 1
#define MASK 7
int printf(const char *, ...);
void exit(int);
typedef enum { DARK = 1, PALE = 3, LIGHT } shade;
struct thin { unsigned char small; volatile unsigned seen; };
struct pair { unsigned first, second; unsigned cells[4]; };
union either { unsigned number; unsigned char bytes[4]; };
static unsigned g0 = 1, g1 = 2, g2 = 3, g3, g4;
unsigned public0 = 5;
static unsigned table[8];
static struct pair box;
static union either mixed;
static unsigned *aim = &g4;
static int fuel = FUEL;
static jmp_buf place;
static void hook0(void), hook1(void);
typedef void (*hook)(void);
static const hook entry0 __attribute__((section("ents") KEPT)) = hook0;
static const hook entry1 __attribute__((section("ents") KEPT)) = hook1;
extern const hook __start_ents[], __stop_ents[];
"""
STOP = """static void stop(unsigned n) __attribute__((noreturn));
static void stop(unsigned n)
{
    printf("stopped %u %u %u\\n", n, g0, box.first);
    exit(3);
}
static void leave(unsigned *n)
{
    g3 = g3 + *n;
}
"""
HOOKS = """static void hook0(void)
{
    g2 = g2 ^ box.second;
}
static void hook1(void)
{
    g3 = 5;
    table[1] = g3 + g1;
}
static void run_hooks(void)
{
    for (const hook *at = __start_ents; at < __stop_ents; at++)
        (*at)();
}
"""
# Parameters of each kind: how they are declared, what of them is read, and what is given for them.
TAKEN = [
    ("unsigned {}", "{}", "{expression}"),
    ("volatile unsigned {}", "{}", "{expression}"),
    ("const unsigned {}", "{}", "{name}"),
    ("register unsigned {}", "{}", "{name}"),
    ("unsigned {} __attribute__((unused))", "3", "{name}"),
    ("volatile unsigned {}", "5", "{name}"),
    ("unsigned char {}", "{}", "{expression}"),
    ("volatile short {}", "{}", "{name}"),
    ("long long {}", "{}", "{expression}"),
    ("volatile double {}", "(unsigned){}", "({name} & 255)"),
    ("double {}", "(unsigned){}", "({name} & 255)"),
    ("_Bool {}", "{}", "{name} & 4"),
    ("volatile _Bool {}", "{}", "{name} & 2"),
    ("volatile shade {}", "{}", "{name} & PALE"),
    ("struct pair {}", "{0}.first + {0}.cells[1]", "{pair}"),
    ("volatile struct pair {}", "{}.second", "{pair}"),
    ("struct thin {}", "{0}.small + {0}.seen", "slim"),
    ("struct thin {}", "{}.small", "slim"),
    ("volatile union either {}", "{}.number", "mixed"),
    ("unsigned *{}", "*{}", "{target}"),
    ("unsigned *volatile {}", "*{}", "{target}"),
    ("_Complex double {}", "(unsigned)__real__ {}", "wave"),
    ("volatile _Complex double {}", "(unsigned)__imag__ {}", "wave"),
]
POINTED = ["aim = &g3;", "aim = &g4;", "to = &box;", "to = &duo;"]
GLOBALS = ["g0", "g1", "g2", "g3", "g4", "public0"]
OPERATORS = ["+", "-", "*", "&", "|", "^"]
CONSTANTS = [
    "1",
    "2",
    "4",
    "8",
    "3",
    "LOW",
    "MASK",
    "PALE",
    "LIGHT",
    "'a'",
    "'\\n'",
    "010",
    "0x1fu",
]
COMPARISONS = ["<", ">", "<=", ">=", "==", "!="]


class Program:
    """A program of so many functions, made of a seed: the same seed gives the same program."""

    def __init__(self, seed: int) -> None:
        self.random = random.Random(seed)
        self.count = self.random.randint(2, 5)
        self.addressed = self.random.sample(range(self.count), k=min(2, self.count))
        self.takers = [Taker(self, number) for number in range(self.random.randint(2, 4))]
        self.functions = [Function(self, number) for number in range(self.count)]

    def text(self) -> str:
        """The program's text."""
        head = HEAD.replace("FUEL", str(self.random.randint(20, 120)))
        prototypes = "".join(
            f"static unsigned f{number}(unsigned p0, unsigned p1);\n"
            for number in range(self.count)
        )
        calls = ", ".join(f"f{number}" for number in self.addressed)
        tables = f"static unsigned (*const actions[])(unsigned, unsigned) = {{ {calls} }};\n"
        prototypes += "".join(taker.heading() + ";\n" for taker in self.takers)
        bodies = "\n".join(function.text() for function in [*self.takers, *self.functions])
        parts = [
            f"{head}{prototypes}{tables}/* functions */",
            STOP,
            HOOKS,
            bodies,
            self.main_text(),
        ]
        return "\n".join(parts)

    def main_text(self) -> str:
        """The function main, which looks at some of the globals in the end."""
        shown = self.random.sample(GLOBALS, k=3)
        calls = "".join(
            f"    sum = sum * 3 + f{self.random.randrange(self.count)}"
            f"({self.random.randint(0, 9)}, (unsigned)argc);\n"
            for _ in range(self.random.randint(1, 4))
        )
        shows = "".join(f'    printf("{name} %u\\n", {name});\n' for name in shown)
        return (
            f"int main(int argc, char **argv)\n{{\n    unsigned sum = 0;\n{calls}"
            f"    run_hooks();\n{shows}"
            f'    printf("%u %u\\n", sum, table[sum & 7]);\n    return 0;\n}}\n'
        )


class Taker:
    """A function that takes parameters of many kinds, reads some, and may be left by a jump."""

    def __init__(self, program: Program, number: int) -> None:
        self.random = program.random
        self.name = f"t{number}"
        self.kinds = [self.random.choice(TAKEN) for _ in range(self.random.randint(1, 6))]
        self.jumps = self.random.random() < 0.2

    def heading(self) -> str:
        """The function's heading."""
        names = [kind[0].format(f"a{at}") for at, kind in enumerate(self.kinds)]
        return f"static unsigned {self.name}({', '.join(names)})"

    def text(self) -> str:
        """The function's text."""
        values = [f"({kind[1].format(f'a{at}')})" for at, kind in enumerate(self.kinds)]
        jump = "    if (setjmp(place) != 0)\n        return 1;\n" if self.jumps else ""
        return f"{self.heading()}\n{{\n{jump}    return {' + 3 * '.join(values)};\n}}\n"

    def call(self, function: "Function") -> str:
        """A call of it from a function."""
        choices = {
            "name": function.simple,
            "expression": function.expression,
            "target": function.target,
            "pair": lambda: self.random.choice(["duo", "box", "kit"]),
        }
        given = [
            kind[2].format(**{name: choice() for name, choice in choices.items()})
            for kind in self.kinds
        ]
        return f"{self.name}({', '.join(given)})"


class Function:
    """A function while it is made: its variables, and expressions that it evaluates again and
    again.
    """

    def __init__(self, program: Program, number: int) -> None:
        self.program = program
        self.random = program.random
        self.name = f"f{number}"
        self.locals = [f"v{count}" for count in range(self.random.randint(2, 5))]
        self.names = [*self.locals, "p0", "p1", "late", *GLOBALS]
        self.usual = [
            f"{self.random.choice(self.names)} {self.random.choice(OPERATORS)} "
            f"{self.random.choice(self.names)}"
            for _ in range(3)
        ]
        self.labels = 0
        self.counters = 0
        self.lines = []

    def text(self) -> str:
        """The function's text."""
        self.put("if (fuel-- <= 0)", 1)
        self.put(f"return {self.simple()};", 2)
        self.block(1, self.random.randint(4, 9), 0)
        self.put(f"return {self.expression()};", 1)
        names = "".join(f"    unsigned {name} = {self.first_value()};\n" for name in self.locals)
        counters = "".join(f"    int k{number};\n" for number in range(self.counters))
        late = (
            "    unsigned at = p0 % 3;\n    struct pair kit = { 3 };\n    struct thin slim;\n"
            "    _Complex double wave;\n    unsigned late, row[3];\n"
            "    slim.small = p1;\n    slim.seen = p0;\n    __real__ wave = p0 & 63;\n"
            "    __imag__ wave = p1 & 63;\n    row[0] = p0;\n    row[1] = p1;\n"
            "    row[2] = 3;\n    late = row[1];\n"
        )
        guarded = (
            "    unsigned kept __attribute__((cleanup(leave))) = p0;\n"
            if self.random.random() < 0.25
            else ""
        )
        return (
            f"static unsigned {self.name}(unsigned p0, unsigned p1)\n{{\n{names}{counters}"
            "    unsigned local[4] = { 1, 2, p0, 4 };\n"
            "    struct pair duo = { p1, 2, { 1 } };\n"
            f"    unsigned *where = {self.target()};\n"
            f"    struct pair *to = &{self.random.choice(['box', 'box', 'duo'])};\n{guarded}{late}"
            + "\n".join(self.lines)
            + "\n}\n"
        )

    def put(self, line: str, depth: int) -> None:
        """Adds a line."""
        self.lines.append("    " * depth + line)

    def first_value(self) -> str:
        """What a local begins with."""
        return self.random.choice(
            ["0", "p0", "p1", "p0 + p1", str(self.random.randint(1, 99)), "g0"]
        )

    def target(self) -> str:
        """What a pointer may point to."""
        return "&" + self.random.choice(
            [*self.locals, "g3", "g4", "table[3]", "local[1]", "duo.second", "box.first"]
        )

    def simple_name(self) -> str:
        """A variable."""
        return self.random.choice(self.names)

    def simple(self) -> str:
        """A variable or a number."""
        return self.random.choice([*self.names, str(self.random.randint(0, 50))])

    def operand(self) -> str:
        """Something with a value."""
        kind = self.random.random()
        if kind < 0.6:
            return self.simple()
        index = self.random.choice(self.names)
        return self.random.choice(
            [
                f"table[{index} & 7]",
                f"local[{index} & 3]",
                "duo.first",
                "duo.second",
                "box.second",
                "duo.cells[1]",
                "*where",
                "*aim",
                "mixed.number",
                "mixed.bytes[2]",
                "(unsigned)fuel",
                "row[0]",
                "row[2]",
                "kit.first",
                "kit.cells[1]",
                "row[p1 % 3]",
                "row[at]",
                "row[at]",
                "kit.cells[at]",
                "(unsigned)__real__ wave",
                "slim.small",
            ]
        )

    def expression(self, depth: int = 0) -> str:
        """An expression."""
        kind = self.random.random()
        if kind < 0.4:
            return self.random.choice(self.usual)
        if kind < 0.75:
            return f"{self.operand()} {self.random.choice(OPERATORS)} {self.operand()}"
        if kind < 0.82:
            return f"{self.operand()} / ({self.operand()} | 1)"
        if kind < 0.86:
            return (
                f"{self.operand()} {self.random.choice(['<<', '>>'])} {self.random.randint(0, 7)}"
            )
        if kind < 0.90:
            sign = self.random.choice(["%", "/", "&", "+", "-", "*"])
            return f"{self.simple_name()} {sign} {self.random.choice(CONSTANTS)}"
        if kind < 0.94 and depth == 0:
            return f"({self.test()} ? {self.expression(1)} : {self.expression(1)})"
        return self.random.choice(["-", "~", "!"]) + self.simple()

    def test(self) -> str:
        """A condition."""
        plain = f"{self.operand()} {self.random.choice(COMPARISONS)} {self.operand()}"
        kind = self.random.random()
        if kind < 0.15:
            return f"{plain} && ({self.random.choice(self.usual)}) > {self.random.randint(0, 9)}"
        return f"{plain} || {self.operand()}" if kind < 0.3 else plain

    def place(self) -> str:
        """Something that can be assigned."""
        kind = self.random.random()
        if kind < 0.65:
            return self.random.choice([*self.locals, *self.locals, "p0", "p1", *GLOBALS])
        index = self.random.choice(self.names)
        return self.random.choice(
            [
                f"table[{index} & 7]",
                f"local[{index} & 3]",
                "duo.first",
                "duo.cells[2]",
                "box.first",
                "box.cells[1]",
                "*where",
                "*aim",
                "mixed.number",
                "mixed.bytes[1]",
                "row[0]",
                "row[1]",
                "late",
                "kit.first",
                "kit.cells[1]",
                "kit.second",
                "row[p0 % 3]",
                "row[at]",
                "*where",
                "*where",
                "slim.small",
                "duo.second",
                "box.second",
            ]
        )

    def block(self, depth: int, count: int, loops: int) -> None:
        """Some statements."""
        for _ in range(count):
            self.statement(depth, loops)

    def statement(self, depth: int, loops: int) -> None:
        """A statement of some kind."""
        kinds = (
            [self.assign] * 8 + [self.call] * 2 + [self.behind, self.point, self.copy, self.show]
        )
        if depth < 4:
            kinds += [self.branch] * 4 + [self.loop, self.switch, self.jump, self.leave_early]
        self.random.choice(kinds)(depth, loops)

    def assign(self, depth: int, loops: int) -> None:
        """An assignment."""
        del loops
        sign = self.random.choice(["=", "=", "=", "=", "+=", "^="])
        if self.random.random() < 0.1:
            value = f"{self.place()} = {self.place()} = {self.expression()}"
            self.put(f"{value};", depth)
            return
        self.put(
            self.random.choice(
                [f"{self.place()} {sign} {self.expression()};"] * 5
                + [f"{self.place()}++;", f"--{self.place()};"]
            ),
            depth,
        )

    def call(self, depth: int, loops: int) -> None:
        """A call, by name or through the table."""
        del loops
        if self.random.random() < 0.5:
            target = self.random.choice([*self.locals, "g1", "g2", "late"])
            self.put(f"{target} = {self.random.choice(self.program.takers).call(self)};", depth)
            return
        name = self.random.choice(
            [f"f{self.random.randrange(self.program.count)}"] * 3
            + [f"actions[p0 % {len(self.program.addressed)}]"]
        )
        target = (
            f"{self.random.choice([*self.locals, 'g1', 'g2'])} = "
            if self.random.random() < 0.8
            else ""
        )
        self.put(f"{target}{name}({self.expression()}, {self.simple()});", depth)

    def point(self, depth: int, loops: int) -> None:
        """A pointer that points elsewhere."""
        del loops
        self.put(self.random.choice(POINTED + [f"where = {self.target()};"]), depth)

    def copy(self, depth: int, loops: int) -> None:
        """A copy of a struct."""
        del loops
        self.put(
            self.random.choice(["box = duo;", "duo = box;", "kit = box;", "box = kit;"]), depth
        )

    def behind(self, depth: int, loops: int) -> None:
        """Two stores to what a pointer leads to, with something between that may read it."""
        place = self.random.choice(["*where", "to->first", "to->cells[1]"])
        self.put(f"{place} = {self.expression()};", depth)
        between = [self.call, self.call, self.show, self.point, self.copy, self.assign]
        for _ in range(self.random.randint(0, 2)):
            self.random.choice(between)(depth, loops)
        self.put(f"{place} = {self.expression()};", depth)

    def show(self, depth: int, loops: int) -> None:
        """Something is printed."""
        del loops
        self.put(f'printf("%u\\n", {self.operand()});', depth)

    def branch(self, depth: int, loops: int) -> None:
        """A test."""
        self.put(f"if ({self.test()}) {{", depth)
        self.block(depth + 1, self.random.randint(1, 3), loops)
        if self.random.random() < 0.5:
            self.put("} else {", depth)
            self.block(depth + 1, self.random.randint(1, 3), loops)
        self.put("}", depth)

    def loop(self, depth: int, loops: int) -> None:
        """A loop with a counter of its own."""
        counter = f"k{self.counters}"
        self.counters += 1
        bound = self.random.randint(1, 4)
        form = self.random.choice(["for", "while", "do"])
        if form == "for":
            self.put(f"for ({counter} = 0; {counter} < {bound}; {counter}++) {{", depth)
        else:
            self.put(f"{counter} = {bound};", depth)
            self.put(f"while ({counter}-- > 0) {{" if form == "while" else "do {", depth)
        self.block(depth + 1, self.random.randint(1, 3), loops + 1)
        if self.random.random() < 0.3:
            self.put(f"if ({self.test()})", depth + 1)
            # a loop of the last form would not count behind `continue`
            self.put(
                "break;" if form == "do" else self.random.choice(["break;", "continue;"]), depth + 2
            )
        self.put(f"}} while (--{counter} > 0);" if form == "do" else "}", depth)

    def switch(self, depth: int, loops: int) -> None:
        """A switch."""
        self.put(f"switch ({self.operand()} & 3) {{", depth)
        for case in self.random.sample(range(4), k=self.random.randint(1, 3)):
            self.put(f"case {case}:", depth)
            self.block(depth + 1, self.random.randint(1, 2), loops)
            if self.random.random() < 0.7:
                self.put("break;", depth + 1)
        if self.random.random() < 0.5:
            self.put("default:", depth)
            self.block(depth + 1, 1, loops)
        self.put("}", depth)

    def jump(self, depth: int, loops: int) -> None:
        """A jump forward, over statements that are reached or not."""
        label = f"l{self.labels}"
        self.labels += 1
        if self.random.random() < 0.7:
            self.put(f"if ({self.test()})", depth)
            depth_of_jump = depth + 1
        else:
            depth_of_jump = depth
        self.put(f"goto {label};", depth_of_jump)
        self.block(depth, self.random.randint(1, 2), loops)
        self.put(f"{label}:;", depth)

    def leave_early(self, depth: int, loops: int) -> None:
        """A return, or an end of the program."""
        del loops
        self.put(f"if ({self.test()})", depth)
        self.put(
            f"stop({self.simple()});"
            if self.random.random() < 0.1
            else f"return {self.expression()};",
            depth + 1,
        )
