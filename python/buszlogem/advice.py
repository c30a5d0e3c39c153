"""What is said of each kind of mistake in a kernel's text: the rows of the tables of docs/ERRORS.md.

A row is chosen by the kind that the program tells and by the text at the place. In a pattern the sign `‸` is the place; the
line stands behind the nearest line before it that isn't empty, without comments. Of a kind's rows the first whose pattern is
found says what is wrong, and else the one without a pattern. No row guesses which name was meant.
"""

from __future__ import annotations

import re
from typing import NamedTuple

PLACE = "‸"
"""The place of the fault in the text that patterns are matched with."""


class Advice(NamedTuple):
    """A row of a table.

    Attributes
    ----------
    told : str
        The program's line for `text`, as `lex 21 Number`.
    text : str
        A text with the mistake.
    mended : str
        The text without it.
    why : str
        What is wrong, as Markdown.
    pattern : str
        What stands there where the row is meant, as a regular expression; empty for the row of all others of the kind.
    is_shown : bool
        Whether `text` and `mended` are like enough to what was found to be shown with it.
    """

    told: str
    text: str
    mended: str
    why: str
    pattern: str = ""
    is_shown: bool = True

    @property
    def kind(self) -> str:
        """The kind, as `lex Number`, `syntax` or `type Unknown`."""
        return kind_of(self.told)


def kind_of(told: str) -> str:
    """The kind of a line of the program: its word, and behind the place the name of the fault, if it has one."""
    word, *items = told.split(" ")
    return f"{word} {items[1]}" if word in ("lex", "type") else word


def _main(*lines: str) -> str:
    return "\n".join(["def main():", *(f"    {line}" for line in lines)])


CODE = "a program has more than 16,384 nodes: functions, statements, branches and expressions count one each"
"""What is said of `code NODES`, for which no table has a text."""

BYTES: tuple[Advice, ...] = (
    Advice(
        "lex 21 Number", "def main(): delay_mu(10us)", "def main(): delay_mu(10_000)",
        "a letter directly behind digits; there are no units, times are mu", r"‸[\d_]*[a-df-zA-DF-Z]",
    ),
    Advice(
        "lex 23 Number", "def main(): delay_mu(2.5e3)", "def main(): delay_mu(2500)",
        "no floats: times are whole numbers of mu", r"\d\.‸",
    ),
    Advice(
        "lex 21 Number", "def main(): delay_mu(1e6)", "def main(): delay_mu(1_000_000)",
        "no exponents: times are whole numbers of mu", r"‸[\d_]+[eE]",
    ),
    Advice(
        "lex 21 Number", "def main(): delay_mu(1__000)", "def main(): delay_mu(1_000)",
        "a doubled, leading or trailing `_`, `0x` alone, or more than 2^63 - 1",
    ),
    Advice(
        "lex 12 Text", 'def main(): """a shot"""', "def main(): pass  # a shot",
        "no docstrings: a comment begins with `#`", r'‸"""',
    ),
    Advice(
        "lex 24 Text", 'def main(): set_dataset("scan.x", 1)', 'def main(): set_dataset("scan_x", 1)',
        "no dot in the text of a name: letters, digits and `_` alone", r'‸"\w*\.[\w.]*"',
    ),
    Advice(
        "lex 18 Text", 'def main(): print("bright: 3")', 'def main(): set_dataset("bright", 3)',
        "no `print`: `set_dataset` puts a number into the report", r"\bprint\(.*‸",
    ),
    Advice(
        "lex 30 Text", 'def main(): core_dma.playback("my pulse")', 'def main(): core_dma.playback("my_pulse")',
        "a text is 1 to 32 letters, digits and `_` in double quotes",
    ),
    Advice(
        "lex 18 Byte", "def main(): print('bright')", 'def main(): set_dataset("bright", 3)',
        "no `print`: `set_dataset` puts a number into the report", r"\bprint\(.*‸",
    ),
    Advice(
        "lex 30 Byte", "def main(): core_dma.playback('pulse')", 'def main(): core_dma.playback("pulse")',
        "no single quotes: a text stands in double quotes", r"‸'",
    ),
    Advice(
        "lex 21 Byte", "def main(): ttl0.on(); ttl1.on()", "def main(): ttl0.on()",
        "no `;`: one statement a line", r"‸;",
    ),
    Advice(
        "lex 30 Byte", "def main(): delay_mu(now_mu() / 2)", "def main(): delay_mu(now_mu() // 2)",
        "no `/`: whole numbers are divided by `//`", r"‸/",
    ),
    Advice(
        "lex 18 Byte", "def main(): x = 1 \\ + 2", "def main(): x = (1 + 2)",
        "no backslash: a line goes on only inside brackets", r"‸\\",
    ),
    Advice(
        "lex 16 Byte", "def main(): x = !True", "def main(): x = not True",
        "a byte that begins no token",
    ),
    Advice(
        "lex 4 Name", "def a2345678901234567890123456789012345678901234567890123456789012345(): pass", "def main(): pass",
        "a name of more than 64 bytes",
    ),
    Advice(
        "lex 12 Tab", "def main():\n\tttl0.on()", _main("ttl0.on()"),
        "a tab outside a comment: indent with spaces",
    ),
    Advice(
        "lex 28 Indent", "def main():\n    ttl0.on()\n  ttl0.off()", _main("ttl0.on()", "ttl0.off()"),
        "a line whose spaces match no open block",
    ),
)
"""The table of `lex AT KIND`."""

WORDS: tuple[Advice, ...] = (
    Advice(
        "syntax 6 12", "def main():\nttl0.on()", _main("ttl0.on()"),
        "the body isn't indented: behind a colon it stands four spaces further in", r"^( *)\S[^\n]*:\n(?!\1 ) *‸|:‸$",
    ),
    Advice(
        "syntax 9 20", "def main(): ttl0.on(", "def main(): ttl0.on()",
        "a bracket is still open", r"[(\[]([^()\[\]]|\([^()]*\)|\[[^\[\]]*\])*(\n *‸|‸$)",
    ),
    Advice(
        "syntax 13 34", "def main():\n    ttl0.on()\n        ttl1.on()", _main("ttl0.on()", "ttl1.on()"),
        "the line stands further in than the one before it, which opens no block", r"^\n +‸|^( *)\S[^\n]*(?<!:)\n\1 +‸",
    ),
    Advice(
        "syntax 1 1", "@portable\ndef main(): pass", "@kernel\ndef main(): pass",
        "`@kernel` is the only decorator", r"@ *‸",
    ),
    Advice(
        "syntax 0 0", "import numpy", "def main(): pass",
        "a text is functions alone: no imports, no classes, no statements outside", r"\n‸",
    ),
    Advice(
        "syntax 6 19", "def main(): import numpy", "def main(): pass",
        "no imports: what a kernel may call is there already", r"\b(import|from) *‸",
    ),
    Advice(
        "syntax 5 14", "def main() -> None: pass", "def main(): pass",
        "a function without a value has no result type", r"-> *‸None\b",
    ),
    Advice(
        "syntax 5 14", "def main() -> float: return 1", "def main() -> int64: return 1",
        "a type is `int32`, `int64` or `bool`", r"(->|\bdef .*:) *‸\w",
    ),
    Advice(
        "syntax 6 18", "def shot(n: int32 = 3): pass", "def shot(n: int32): pass\ndef main(): shot(3)",
        "no default values", r"\bdef .*: *\w+ *‸=",
    ),
    Advice(
        "syntax 4 13", "def main(self): pass", "def main(): pass",
        "a parameter has a type, `x: int32`, and there is no `self`", r"\bdef +\w+ *\([^()]*\w *‸ *[,)=]",
    ),
    Advice(
        "syntax 4 11", "def main() ttl0.on()", "def main(): ttl0.on()",
        "a colon is missing before it",
        r"\n *(def\b[^)]*\) *(-> *\w+ *)?‸(?![:)])|(if|elif|while|for|with|except)\b[^:]*[^:\s] *‸$|(else|try) *‸(?!:))",
    ),
    Advice(
        "syntax 8 21", "def main(): self.ttl0.on()", "def main(): ttl0.on()",
        "no `self.`", r"\bself\.\w+ *‸|‸self\b",
    ),
    Advice(
        "syntax 8 19", "def main(): ttl0.on", "def main(): ttl0.on()",
        "a call has parentheses", r"\w\.\w+ *‸$",
    ),
    Advice(
        "syntax 8 22", "def main(): delay_mu(1.5)", "def main(): delay_mu(2)",
        "no floats: times are whole numbers of mu", r"\d‸\.|‸\.\d",
    ),
    Advice(
        "syntax 8 19", "def main(): at_mu(t=5)", "def main(): at_mu(5)",
        "no keyword arguments", r"[(,] *[A-Za-z_]\w* *‸=(?!=)",
    ),
    Advice(
        "syntax 11 28", "def main():\n    if now_mu() = 3:\n        pass", "def main():\n    if now_mu() == 3:\n        pass",
        "`==` compares, `=` assigns", r"\b(if|elif|while)\b.*‸=",
    ),
    Advice(
        "syntax 7 15", "def main(): x *= 2", "def main(): x = 1 * 2",
        "only `+=` and `-=`", r"(\*|//|%|&|\||\^|<<|>>)‸=",
    ),
    Advice(
        "syntax 9 19", "def main(): x = 2 ** 3", "def main(): x = 1 << 3",
        "no powers", r"\*‸\*",
    ),
    Advice(
        "syntax 6 13", "def main(): x: int32 = 3", "def main(): x = 3",
        "a variable has no annotation", r"[\n:] *(?!finally|except)[A-Za-z_]\w* *‸: *[A-Za-z]",
    ),
    Advice(
        "syntax 12 29", "def main(): x = 1 < now_mu() < 9", "def main(): x = 1 < now_mu() and now_mu() < 9",
        "comparisons aren't chained", r"(==|!=|<=|>=|<|>)[^<>=!]+‸(==|!=|<=|>=|<|>)",
    ),
    Advice(
        "syntax 7 16", 'def main(): x = "a"', "def main(): x = 1",
        "a text stands only as the argument of a call", r'‸"',
    ),
    Advice(
        "syntax 7 16", "def main(): x = +1", "def main(): x = 1",
        "no plus as a prefix", r"[=(,*/%<>+-] *‸\+",
    ),
    Advice(
        "syntax 6 18", "def main(): raise RTIOUnderflow", "def main(): pass",
        "no `raise`, `finally`, `lambda`, `global`, `del`",
        r"\b(raise|finally|lambda|global|nonlocal|del|assert|yield|class|def) *‸",
    ),
    Advice(
        "syntax 8 21", "def main():\n    with interleave:\n        pass", "def main():\n    with sequential:\n        pass",
        "behind `with` stands `parallel`, `sequential` or `core_dma.record(..)`", r"\bwith\b.*‸",
    ),
    Advice(
        "syntax 10 25", "def main():\n    for x in [1, 2]:\n        pass", "def main():\n    for x in range(1, 3):\n        pass",
        "a `for` goes over `range(..)` alone", r"\bfor +\w+ +in *‸",
    ),
    Advice(
        "syntax 15 35", "def main():\n    for x in range(0, 9, 2):\n        pass",
        "def main():\n    for x in range(0, 5):\n        y = 2 * x",
        "no step in `range`: multiply in the loop", r"\brange\(.*,.*‸,",
    ),
    Advice(
        "syntax 16 41", "def main():\n    try: ttl0.on()\n    except: pass",
        "def main():\n    try: ttl0.on()\n    except RTIOUnderflow: pass",
        "an `except` has one name and no more, as `except RTIOUnderflow:`", r"\bexcept\b[^:]*‸",
    ),
    Advice(
        "syntax 6 13", "def main(): a, b = 1, 2", "def main(): a = 1",
        "no text of the language goes on so: `docs/LANGUAGE.md` has the grammar", is_shown=False,
    ),
)
"""The table of `syntax TOKEN AT`."""

TYPES: tuple[Advice, ...] = (
    Advice(
        "type 1 Unknown", "def main(): tll0.on()", "def main(): ttl0.on()",
        "no such object; `ttl0` to `ttl15`, `raw0` to `raw7`, `in0` to `in7`, `core`, `core_dma`", r"‸(?!self\b)\w+ *\.",
    ),
    Advice(
        "type 1 Unknown", "def main(): self.shot()", "def main(): pass",
        "no `self`", r"‸self\b",
    ),
    Advice(
        "type 1 Unknown", "def main(): delay(2 * us)", "def main(): delay_mu(2000)",
        "no such function or name; times are mu", r"‸(?!print\b)\w+ *\(|‸(s|ms|us|ns|ps)\b",
    ),
    Advice(
        "type 1 Unknown", "def main(): print(1)", 'def main(): set_dataset("x", 1)',
        "no `print`: `set_dataset` puts a number into the report", r"‸print\b",
    ),
    Advice(
        "type 3 Unknown", "def main():\n    try: ttl0.on()\n    except ValueError: pass",
        "def main():\n    try: ttl0.on()\n    except RTIOUnderflow: pass",
        "an exception is `RTIOUnderflow`, `RTIOOverflow`, `DMAError`, `ZeroDivisionError`, `IndexError` or `StackOverflow`",
        r"\bexcept +‸",
    ),
    Advice(
        "type 1 Unknown", "def main(): at_mu(start)", "def main(): at_mu(now_mu())",
        "the name has no value yet in this function, and there are no globals: assign it first, or make it a parameter",
    ),
    Advice(
        "type 1 Method", "def main(): ttl0.pulse(500)", "def main(): ttl0.pulse_mu(500)",
        "the object hasn't this method; those of times end in `_mu`",
    ),
    Advice(
        "type 1 Method", "def main(): ttl0.write(0, 1)", "def main(): raw0.write(0, 1)",
        "only `raw` channels have addresses", r"\.‸write\b",
    ),
    Advice(
        "type 1 Arity", "def main(): at_mu()", "def main(): at_mu(1000)",
        "a wrong number of arguments",
    ),
    Advice(
        "type 1 Arity", "def main(): return 1", "def main() -> int32: return 1",
        "a value, and no result type; or the other way round", r"‸return\b",
    ),
    Advice(
        "type 1 Width", "def main() -> int32: return now_mu()", "def main() -> int64: return now_mu()",
        "an int64 where an int32 is wanted; `int32(..)` makes one", r"‸(return|for|if|while)\b",
    ),
    Advice(
        "type 3 Width", _main("start = 0", "start = now_mu()"), _main("start = int64(0)", "start = now_mu()"),
        "an int64 where an int32 is wanted: give the variable the wider type at first, or take `int32(..)` of the value",
    ),
    Advice(
        "type 1 NotBool", "def main(): x = not 1", "def main(): x = not (1 == 0)",
        "conditions and operands of `and`, `or`, `not` are bools",
    ),
    Advice(
        "type 1 Type", "def main(): x = 1 + True", "def main(): x = 1 + 1",
        "the types in this statement don't go together",
    ),
    Advice(
        "type 1 Type", "def main(): x = ttl0.on()", "def main(): ttl0.on()",
        "the call has no value", r"‸.*=.*\.(on|off|pulse_mu|write|reset|break_realtime|wait_until_mu|playback|erase)\(",
    ),
    Advice(
        "type 1 Name", "def main(): core = 1", "def main(): core_count = 1",
        "the name is reserved, a function's, or a second parameter's",
    ),
    Advice(
        "type 1 Size", "def main(): a = [0] * 513", "def main(): a = [0] * 512",
        "too many elements, parameters (8), names (64) or functions (256)",
    ),
    Advice(
        "type 1 BlockExit", "def main(): break", "def main(): return",
        "`break` or `continue` outside a loop, or out of a parallel or record block",
    ),
    Advice(
        "type 3 NestedRecord", _main('with core_dma.record("a"):', '    with core_dma.record("b"):', "        ttl0.on()"),
        _main('with core_dma.record("b"):', "    ttl0.on()"),
        "a record block in a record block",
    ),
    Advice(
        "type 3 LiveInRecord", _main('with core_dma.record("a"):', "    core.reset()", "    ttl0.on()"),
        _main("core.reset()", 'with core_dma.record("a"):', "    ttl0.on()"),
        "in a record block a call that asks the core for more than outputs: move it out",
    ),
    Advice(
        "type 1 NoMain", "def mian(): pass", "def main(): pass",
        "no `main` without parameters; told at line 1",
    ),
)
"""The table of `type LINE KIND`."""


def advice_for(kind: str, before: str, line: str, column: int) -> Advice | None:
    """The row for a fault.

    Parameters
    ----------
    kind : str
        As `lex Number`, `syntax`, `type Unknown`.
    before : str
        The lines before the fault's.
    line : str
        The fault's line.
    column : int
        The fault's column in it, from 1.

    Returns
    -------
    Advice or None
        None for `code`, of which `CODE` says all.
    """
    above = [code for code in map(_code, before.splitlines()) if code.strip()]
    seen = f"{above[-1] if above else ''}\n{line[: column - 1]}{PLACE}{_code(line[column - 1 :])}"
    rows = [row for row in (*BYTES, *WORDS, *TYPES) if row.kind == kind]
    special = (row for row in rows if row.pattern and re.search(row.pattern, seen))
    general = (row for row in rows if not row.pattern)
    return next(special, None) or next(general, None)


def _code(line: str) -> str:
    """A line without its comment and the spaces at its end. A text in a kernel has no `#`."""
    return re.sub(r"#.*", "", line).rstrip()
