"""DEX files of small apps, written instruction by instruction with `bench/dex_writer.py`.

An instruction is a tuple, its word first. Registers are numbers below 16, and a target is the number of an instruction
of the same method. Of methods that take arguments these stand in the last registers.
"""
from __future__ import annotations

import struct
import sys
from dataclasses import dataclass, field

from tests.support import ROOT

sys.path.append(str(ROOT / "bench"))
from dex_writer import PUBLIC, STATIC, DexFile, code_item  # noqa: E402  (that folder is on the path just now)

OBJECT = "Ljava/lang/Object;"
ARRAY = "[Ljava/lang/Object;"
Instruction = tuple[object, ...]
# How many units each word takes.
LENGTHS = {"const": 1, "move": 2, "new": 2, "new_array": 2, "aget": 2, "aput": 2, "iget": 2, "iput": 2, "sget": 2,
           "sput": 2, "call": 3, "virtual": 3, "result": 1, "caught": 1, "if": 2, "goto": 2, "return": 1, "end": 1,
           "throw": 1, "join": 2}


@dataclass(frozen=True)
class Called:
    """A method that an instruction names."""
    owner: str
    name: str
    parameters: tuple[str, ...]
    gives: str

    @property
    def text(self) -> str:
        """As reports name it."""
        return f"{self.owner}->{self.name}({''.join(self.parameters)}){self.gives}"


@dataclass
class Code:
    """A method with its instructions; `guarded` of them, the first ones, are under a try whose handler is `handler`."""
    called: Called
    is_static: bool
    registers: int
    body: list[Instruction] = field(default_factory=list)
    guarded: int = 0
    handler: int = 0

    @property
    def ins(self) -> int:
        return len(self.called.parameters) + (0 if self.is_static else 1)

    def addresses(self) -> list[int]:
        """Where each instruction begins, and behind them the end."""
        found = [0]
        for one in self.body:
            found.append(found[-1] + LENGTHS[str(one[0])])
        return found


@dataclass
class AppClass:
    """A class of an app."""
    name: str
    above: str = OBJECT
    interfaces: tuple[str, ...] = ()
    fields: tuple[str, ...] = ()
    statics: tuple[str, ...] = ()
    methods: list[Code] = field(default_factory=list)


def units_of(dex: DexFile, code: Code) -> bytes:
    """The units of the instructions of a method."""
    addresses = code.addresses()
    return b"".join(_units(dex, one, at, addresses) for one, at in zip(code.body, addresses))


def _units(dex: DexFile, one: Instruction, at: int, addresses: list[int]) -> bytes:
    word, *rest = one
    numbers = [part for part in rest if isinstance(part, int)]
    if word in ("call", "virtual"):
        return _call(dex, 0x71 if word == "call" else 0x6E, one[1], numbers)
    if word in ("iget", "iput"):
        held, of, (owner, name) = rest  # type: ignore[misc]
        opcode = 0x54 if word == "iget" else 0x5B
        return struct.pack("<2H", opcode | int(held) << 8 | int(of) << 12, dex.field(owner, name, OBJECT))
    if word in ("sget", "sput"):
        held, (owner, name) = rest  # type: ignore[misc]
        return struct.pack("<2H", (0x62 if word == "sget" else 0x69) | int(held) << 8, dex.field(owner, name, OBJECT))
    if word == "if":
        return struct.pack("<Hh", 0x38 | numbers[0] << 8, addresses[numbers[1]] - at)
    if word == "goto":
        return struct.pack("<Hh", 0x29, addresses[numbers[0]] - at)
    if word == "new":
        return struct.pack("<2H", 0x22 | numbers[0] << 8, dex.type(str(one[2])))
    if word == "new_array":
        return struct.pack("<2H", 0x23 | numbers[0] << 8 | numbers[1] << 12, dex.type(ARRAY))
    if word in ("aget", "aput", "join"):
        opcode = {"aget": 0x46, "aput": 0x4D, "join": 0x90}[str(word)]
        return struct.pack("<2H", opcode | numbers[0] << 8, numbers[1] | numbers[2] << 8)
    if word == "move":
        return struct.pack("<2H", 0x08 | numbers[0] << 8, numbers[1])
    opcodes = {"const": 0x12, "result": 0x0C, "caught": 0x0D, "return": 0x11, "throw": 0x27, "end": 0x0E}
    return struct.pack("<H", opcodes[str(word)] | (numbers[0] << 8 if numbers else 0))


def _call(dex: DexFile, opcode: int, called: object, registers: list[int]) -> bytes:
    assert isinstance(called, Called)
    row = dex.method(called.owner, called.name, called.gives, called.parameters)
    packed = sum(register << 4 * place for place, register in enumerate(registers))
    return struct.pack("<3H", opcode | len(registers) << 12, row, packed)


def dex_of(classes: list[AppClass]) -> bytes:
    """The file of these classes."""
    dex = DexFile()
    dex.type("Ljava/lang/Exception;")
    for one in classes:
        rows = [(dex.method(code.called.owner, code.called.name, code.called.gives, code.called.parameters), code)
                for code in one.methods]
        methods = []
        for row, code in sorted(rows, key=lambda pair: pair[0]):
            tries, handlers = (), ()
            if code.guarded:
                tries, handlers = [(0, code.addresses()[code.guarded])], [code.addresses()[code.handler]]
            item = code_item(code.registers, code.ins, units_of(dex, code), tries, handlers)
            methods.append((row, PUBLIC | (STATIC if code.is_static else 0), item))
        statics, fields = (sorted(dex.field(one.name, name, OBJECT) for name in names)
                           for names in (one.statics, one.fields))
        dex.add_class(one.name, one.above, one.interfaces, statics, fields, methods)
    return dex.bytes()
