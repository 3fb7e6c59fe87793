"""What `vet` says of the code of methods: units that are none, tries, and code that lists more than a method may.

The DEX files are that of the example `lifecycle` with other code in its method `onPause`. Units and faults are worked
out by docs/FORMATS.md and the Android documentation ("Dalvik bytecode", "Dalvik executable instruction formats").
"""
from __future__ import annotations

import unittest
from dataclasses import dataclass
from typing import Sequence

from tests.program import at_once
from tests.test_vet_answers import ANSWERS, FEW_LISTS, found_with

WHOLE = (ANSWERS / "example_lifecycle.dex").read_bytes()
# Where that file has its one row of class_defs, the class `La/Main;`. The method `onPause()V` is row 0 of method_ids and
# the field `id` is row 0 of field_ids; there are 13 strings.
CLASS_DEF = 268
# The lists allow one row, so that code without a fault is left at the first.
NO_FAULT = "2\nundecided 1\ntoo large: 1\n"
NO_MEMORY = "7\n"
RETURN_VOID, NOP = 0x000E, 0x0000


def u2(*numbers: int) -> bytes:
    return b"".join(number.to_bytes(2, "little") for number in numbers)


def u4(*numbers: int) -> bytes:
    return b"".join(number.to_bytes(4, "little") for number in numbers)


def leb(number: int) -> bytes:
    made = bytearray()
    while number > 0x7F:
        made.append(number & 0x7F | 0x80)
        number >>= 7
    return bytes([*made, number])


@dataclass(frozen=True)
class Code:
    """Units and tries: from which unit on each covers how many, and the handlers that all of them have; `catch_all` is
    None where there is none for all exceptions."""
    units: Sequence[int]
    tries: Sequence[tuple[int, int]] = ()
    handlers: Sequence[int] = ()
    catch_all: int | None = None
    registers: int = 2

    def item(self) -> bytes:
        """The code item, with one handler list for all tries."""
        made = u2(self.registers, 1, 2, len(self.tries)) + u4(0, len(self.units)) + u2(*self.units)
        if self.tries:
            made += bytes(len(made) % 4) + b"".join(u4(start) + u2(count, 1) for start, count in self.tries)
            made += leb(1) + self.signed_count() + b"".join(leb(0) + leb(at) for at in self.handlers)
            made += b"" if self.catch_all is None else leb(self.catch_all)
        return made

    def signed_count(self) -> bytes:
        """How many handlers there are, with a minus sign where there is one for all exceptions besides."""
        count, made = len(self.handlers), bytearray()
        number = count if self.catch_all is None else -count
        while not -64 <= number <= 63:
            made.append(number & 0x7F | 0x80)
            number >>= 7
        return bytes([*made, number & 0x7F])

    def dex(self) -> bytes:
        """The file with this code; it stands behind all else, and behind it the data of the class."""
        made = bytearray(WHOLE + bytes(-len(WHOLE) % 4))
        code = len(made)
        made += self.item()
        data = len(made)
        made += leb(0) + leb(1) + leb(0) + leb(1) + leb(0) + leb(2) + leb(0) + leb(1) + leb(code)
        made[32:36] = u4(len(made))
        made[CLASS_DEF + 24:CLASS_DEF + 28] = u4(data)
        return bytes(made)


def found(code: Code) -> str:
    return found_with({"lists.toml": FEW_LISTS, "classes.dex": code.dex()})


def told(fault: str) -> str:
    return f"3\nrefused app: code La/Main;->onPause()V: {fault}\n"


def switches(distance: int) -> Code:
    """Two `packed-switch` that share a table of this one distance."""
    return Code([0x2B, 8, 0, 0x2B, 5, 0, RETURN_VOID, NOP, 0x100, 1, 0, 0, distance, 0])


def sharing(count: int, entries: int) -> Code:
    """So many `packed-switch` that share one table of so many entries, each of which goes on behind the switch."""
    end = 3 * count + 1
    code = [unit for at in range(0, 3 * count, 3) for unit in (0x2B, (end - at) % 65_536, (end - at) // 65_536)]
    return Code([*code, RETURN_VOID, 0x100, entries, 0, 0, *[3, 0] * entries])


def tried(lines: int, covered: int, handlers: int, catch_all: int | None = None) -> Code:
    """Lines of a unit each, of which a try covers the first; its handlers are the first lines."""
    return Code([*[NOP] * (lines - 1), RETURN_VOID], [(0, covered)], range(handlers), catch_all)


class CodeTest(unittest.TestCase):

    def check(self, cases: Sequence[tuple[str, Code, str]]) -> None:
        for (title, _, due), answered in zip(cases, at_once(lambda case: found(case[1]), cases)):
            with self.subTest(title):
                self.assertEqual(due, answered)

    def test_the_first_fault_is_told_with_its_place(self) -> None:
        self.check([
            ("an opcode that is not used", Code([0x3E]), told("opcode at 0")),
            ("an instruction that is cut", Code([0x13]), told("cut at 0")),
            ("a nop is the last", Code([NOP]), told("falls off at 0")),
            ("no units", Code([]), told("falls off at 0")),
            ("a payload is the first", Code([0x300, 1, 0, 0]), told("falls off at 0")),
            ("the second of a pair is not there", Code([0x12, 0x1004, RETURN_VOID]), told("register at 1")),
            ("a branch into a payload", Code([0x12, 0x228, NOP, 0x100, 0, 0, 0]), told("target at 1")),
            ("another payload", Code([0x26, 4, 0, RETURN_VOID, 0x100, 0, 0, 0]), told("payload at 0")),
            ("no such string", Code([0x1A, 13, RETURN_VOID]), told("index at 0")),
            ("the last string", Code([0x1A, 12, RETURN_VOID]), NO_FAULT),
            ("a goto/32 to itself", Code([0x2A, 0, 0]), NO_FAULT),
            ("a nop before a payload", Code([RETURN_VOID, NOP, 0x300, 1, 0, 0]), NO_FAULT),
            ("a handler within an instruction", Code([0x13, 1, RETURN_VOID], [(0, 3)], [2], 1), told("tries 0")),
            ("a handler at the return", Code([0x13, 1, RETURN_VOID], [(0, 3)], [2], 2), NO_FAULT),
        ])

    def test_each_switch_counts_from_itself(self) -> None:
        self.check([("for both", switches(3), NO_FAULT), ("not for the first", switches(4), told("target at 0")),
                    ("for the first alone", switches(7), told("target at 3"))])

    def test_control_goes_on_behind_all_but_returns_throws_and_gotos(self) -> None:
        behind_array = [0x628, NOP, 0x300, 1, 0, 0, 0x26, 0xFFFC, 0xFFFF]
        behind_table = [0x628, NOP, 0x200, 0, NOP, NOP, 0x2C, 0xFFFC, 0xFFFF]
        ends = {"return-void": [0x0E], "return-object": [0x11], "throw": [0x27], "goto/32": [0x2A, 0, 0]}
        others = {"nop": [0x00], "move-object/16": [0x09, 0, 0], "const-class": [0x1C, 0], "if-eq": [0x32, 0],
                  "if-lez": [0x3D, 0], "aput-short": [0x51, 0], "iput": [0x59, 0], "invoke-interface": [0x1072, 0, 0],
                  "invoke-virtual/range": [0x174, 0, 0], "int-to-short": [0x8F], "add-int": [0x90, 0],
                  "add-int/2addr": [0xB0], "ushr-int/lit8": [0xE2, 0]}
        self.check([
            *((name, Code(units), NO_FAULT) for name, units in ends.items()),
            *((name, Code(units), told("falls off at 0")) for name, units in others.items()),
            ("fill-array-data", Code(behind_array), told("falls off at 6")),
            ("sparse-switch", Code(behind_table), told("falls off at 6")),
        ])

    def test_switches_that_share_a_table_list_its_entries_once_each(self) -> None:
        # Four entries for each unit are allowed.
        self.check([("eight of any table", sharing(8, 32_000), NO_FAULT),
                    ("nine of a short one", sharing(9, 60), NO_FAULT),
                    ("nine of a longer one", sharing(9, 200), NO_MEMORY),
                    ("45,000 of a long one", sharing(45_000, 32_000), NO_MEMORY)])

    def test_handlers_are_listed_for_each_line_that_is_tried(self) -> None:
        # 16 handlers for each unit are allowed.
        each_from_its_own = [(start, min(2, 65_535 - start)) for start in range(65_535)]
        many = Code([*[NOP] * 65_534, RETURN_VOID], each_from_its_own, [3])
        self.check([("16 of all lines", tried(1_000, 1_000, 16), NO_FAULT),
                    ("17 of all lines", tried(1_000, 1_000, 16, 16), NO_MEMORY),
                    ("30 of one line", tried(40, 1, 30), NO_FAULT),
                    ("32,500 of as many", tried(65_000, 32_500, 32_500), NO_MEMORY),
                    ("a try from each line on", many, NO_FAULT)])


if __name__ == "__main__":
    unittest.main()
