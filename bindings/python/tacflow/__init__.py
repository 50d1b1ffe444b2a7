"""The data-flow facts of programs of three-address code: reaching definitions, live variables,
available and very busy expressions, exact over all interprocedurally valid paths.

    import tacflow

    with tacflow.open("proc main\\n  read x\\n  y = x\\n  print x\\nend\\n") as program:
        live = program.facts("live")
        print(live.names_at(1))  # what is live before the second statement: ['x']

What the library finds is proved to be what the definitions say of the text; this module is a thin
layer over its calls, and not proved. `docs/LIBRARY.md` has more, `docs/LANGUAGE.md` the language,
`docs/ANALYSES.md` the analyses.

Tables are arrays of numpy where numpy is there, and else memoryviews. While the library works,
other threads of Python go on.
"""

from tacflow._build import Built, BuiltProcedure, build
from tacflow._errors import (
    BadAnalysis,
    BadLimits,
    BadRange,
    ClosedProgram,
    Error,
    NotBuilt,
    OutOfMemory,
    Refused,
    TooManyBits,
    TooManyPoints,
)
from tacflow._facts import Facts
from tacflow._library import VERSION as __version__
from tacflow._parts import report_part
from tacflow._program import (
    Definition,
    Edge,
    Expression,
    Hop,
    Nearby,
    Operand,
    Point,
    Program,
    Remark,
    Sizes,
    Statement,
    open,
)
from tacflow._words import (
    Analysis,
    EdgeKind,
    Effect,
    HopKind,
    Limits,
    NearbyKind,
    RemarkKind,
    StatementKind,
)

__all__ = [
    "Analysis",
    "BadAnalysis",
    "BadLimits",
    "BadRange",
    "Built",
    "BuiltProcedure",
    "ClosedProgram",
    "Definition",
    "Edge",
    "EdgeKind",
    "Effect",
    "Error",
    "Expression",
    "Facts",
    "Hop",
    "HopKind",
    "Limits",
    "Nearby",
    "NearbyKind",
    "NotBuilt",
    "Operand",
    "OutOfMemory",
    "Point",
    "Program",
    "Refused",
    "Remark",
    "RemarkKind",
    "Sizes",
    "Statement",
    "StatementKind",
    "TooManyBits",
    "TooManyPoints",
    "__version__",
    "build",
    "open",
    "report_part",
]
