"""The code of an app as its DEX files have it: a method by its printed name, and what stands at an address of it.

Androguard reads the files. Names are printed as `vet` prints them (`shown.printed`), so a place of a report finds
its method by its text. What androguard can't read, or reads from other tables than the header names, is a `DexFault`.
"""
from __future__ import annotations

import logging
import zlib
from dataclasses import dataclass, field
from pathlib import Path
from typing import Any, Callable, Iterable, Iterator

from vet_tools.progress import tell
from vet_tools.report import Place, unprinted
from vet_tools.shown import printed

logging.getLogger("androguard").setLevel(logging.CRITICAL + 1)

STATIC, NATIVE = 0x8, 0x100
NO_INDEX = 0xFFFFFFFF
INVOKES = {*range(0x6E, 0x73), *range(0x74, 0x79)}
INVOKE_STATIC = {0x71, 0x77}
VIRTUAL = {0x6E, 0x72, 0x74, 0x78}
STRINGS = {0x1A, 0x1B}
TYPES = {0x1C, 0x1F, 0x20, 0x22, 0x23, 0x24, 0x25}
FIELDS = set(range(0x52, 0x6E))
BRACED = INVOKES | {0x24, 0x25}
LONGEST_TEXT = 120


class DexFault(Exception):
    """A DEX file could not be read by androguard; the text is one sentence."""


@dataclass(frozen=True)
class MethodRef:
    """A method as an instruction names it. `static` is what the kind of call says."""
    class_name: str
    name: str
    parameters: tuple[str, ...]
    result: str
    static: bool

    @property
    def descriptor(self) -> str:
        """`(PARAMETERS)RESULT`, as lists and reports have it."""
        return f"({''.join(self.parameters)}){self.result}"

    @property
    def positions(self) -> int:
        """How many positions a row of the lists counts: the receiver where there is one, and each argument once."""
        return len(self.parameters) + (0 if self.static else 1)

    def __str__(self) -> str:
        return f"{self.class_name}->{self.name}{self.descriptor}"


@dataclass(frozen=True)
class Instruction:
    """One instruction: its address in code units, its text, its bytes, the method called, whether an object decides.

    `named` is what else it names: a type, a field as `CLASS->NAME:TYPE`, or a text.
    """
    pc: int
    text: str
    size: int = 2
    called: MethodRef | None = None
    virtual: bool = False
    registers: tuple[int, ...] = ()
    named: str = ""


@dataclass(frozen=True)
class SourceLine:
    """A line of a source file; the file is empty where the DEX does not name it."""
    file: str
    line: int

    def __str__(self) -> str:
        return f"{self.file or '(file not named)'}:{self.line}"


@dataclass
class Method:
    """A method of the app. `index` is its number in certificates, where it is one that these number."""
    class_name: str
    name: str
    descriptor: str
    static: bool
    native: bool
    code: Any = None
    dex: str = ""
    source_file: str = ""
    index: int = -1
    _instructions: dict[int, Instruction] | None = field(default=None, repr=False)
    _reads: Callable[[Any], Iterator[Instruction]] | None = field(default=None, repr=False)

    def __str__(self) -> str:
        return f"{self.class_name}->{self.name}{self.descriptor}"

    def at(self, pc: int) -> Instruction | None:
        """The instruction that begins at this address, or `None`."""
        return self.instructions().get(pc)

    def instructions(self) -> dict[int, Instruction]:
        """All instructions by address; none where the method has no code."""
        if self._instructions is None:
            found = self._reads(self.code) if self.code is not None and self._reads else iter(())
            self._instructions = {one.pc: one for one in found}
        return self._instructions

    def offset_of(self, pc: int) -> int:
        """The byte of the DEX file at which this address lies; the code's units stand 16 bytes behind its item."""
        return int(self.code.get_off()) + 16 + 2 * pc

    def line_at(self, pc: int) -> SourceLine | None:
        """The source line of this address by the DEX's debug information, or `None` where it has none."""
        if self.code is None or not self.code.get_debug_info_off():
            return None
        try:
            line = _line(self.code.get_debug(), pc)
        except Exception:  # androguard has no exception of its own for damaged debug information
            return None
        return None if line is None else SourceLine(self.source_file, line)


@dataclass
class AppClass:
    """A class of the app: its superclass (empty: none), interfaces, and the methods in its data."""
    name: str
    superclass: str
    interfaces: tuple[str, ...]
    methods: list[Method]


def _line(debug: Any, pc: int) -> int | None:
    """The state machine of `debug_info_item` (Dalvik Executable format): the last position at or before the address."""
    address, line, found = 0, debug.get_line_start(), None
    for code in debug.get_bytecodes():
        op = code.get_op_value()
        if op == 1:
            address += code.format[0][0]
        elif op == 2:
            line += code.format[0][0]
        elif op >= 10:
            address += (op - 10) // 15
            line += -4 + (op - 10) % 15
            if address > pc:
                break
            found = line
    return found


# The items of a map by which code is found: header, ids, class definitions, lists of types, class data, code, texts.
_NEEDED = {0x0000, 0x0001, 0x0002, 0x0003, 0x0004, 0x0005, 0x0006, 0x1001, 0x2000, 0x2001, 0x2002}


def _lean(data: bytes) -> bytes:
    """The file without annotations and static values, which no report needs and androguard takes long for.

    The map stands anew at the end with what is needed; the checksum is set right, since the program does not look at
    it and androguard refuses a wrong one. What is damaged stays so.
    """
    whole = bytearray(data[:int.from_bytes(data[32:36], "little")])
    at = int.from_bytes(whole[52:56], "little")
    count = int.from_bytes(whole[at:at + 4], "little")
    rows = [bytes(whole[row:row + 12]) for row in range(at + 4, min(at + 4 + 12 * count, len(whole)), 12)]
    kept = [row for row in rows if int.from_bytes(row[:2], "little") in _NEEDED]
    classes, first = (int.from_bytes(whole[place:place + 4], "little") for place in (96, 100))
    for row in range(first, min(first + 32 * classes, len(whole) - 31), 32):
        whole[row + 20:row + 24] = whole[row + 28:row + 32] = bytes(4)
    whole += bytes(-len(whole) % 4)
    if rows:
        whole[52:56] = len(whole).to_bytes(4, "little")
        whole += len(kept).to_bytes(4, "little") + b"".join(kept)
    whole[32:36] = len(whole).to_bytes(4, "little")
    whole[8:12] = zlib.adler32(bytes(whole[12:])).to_bytes(4, "little")
    return bytes(whole)


class _File:
    """One DEX file. All androguard calls are here; whatever they raise becomes a `DexFault`."""

    def __init__(self, name: str, data: bytes) -> None:
        from androguard.core.bytecodes import dvm, dvm_types
        self.name = name
        try:
            self.vm = dvm.DalvikVMFormat(_lean(data))
            kinds = dvm_types.TypeMapItem
            items = {kind: self.vm.map_list.get_item_type(kind) for kind in kinds}
            self.types, self.protos = items[kinds.TYPE_ID_ITEM], items[kinds.PROTO_ID_ITEM]
            fits = self._fits(kinds)
            self.class_items = list(items[kinds.CLASS_DEF_ITEM].get_obj()) if items[kinds.CLASS_DEF_ITEM] else []
        except Exception as fault:  # androguard raises anything on a damaged file
            raise DexFault(f"{name} could not be read by androguard ({type(fault).__name__}), "
                           "so what it holds is not shown.") from None
        if not fits:
            raise DexFault(f"The map of {name} does not fit its header, so what it holds is not shown; "
                           "compilers make no such file.")

    def _fits(self, kinds: Any) -> bool:
        """Do the tables of the map, by which androguard goes, stand where the header says, by which vet goes?"""
        header = self.vm.header
        due = {kinds.STRING_ID_ITEM: (header.string_ids_size, header.string_ids_off),
               kinds.TYPE_ID_ITEM: (header.type_ids_size, header.type_ids_off),
               kinds.PROTO_ID_ITEM: (header.proto_ids_size, header.proto_ids_off),
               kinds.FIELD_ID_ITEM: (header.field_ids_size, header.field_ids_off),
               kinds.METHOD_ID_ITEM: (header.method_ids_size, header.method_ids_off),
               kinds.CLASS_DEF_ITEM: (header.class_defs_size, header.class_defs_off)}
        for kind, (size, offset) in due.items():
            stands = [(item.get_size(), item.get_offset()) for item in self.vm.map_list.map_item
                      if item.get_type() == kind]
            if stands != ([(size, offset)] if size else []) or (size and offset % 4):
                return False
        return True

    def text(self, index: int) -> str:
        """String `index` as it is printed."""
        return printed(bytes(self.vm.CM.get_raw_string(index)))

    def type(self, index: int) -> str:
        """The descriptor of type `index` as it is printed."""
        return self.text(self.types.get(index))

    def ref(self, index: int, static: bool) -> MethodRef:
        """Method `index` of the file's table."""
        item = self.vm.CM.get_method_ref(index)
        proto = self.protos.get(item.get_proto_idx())
        parameters = tuple(printed(bytes(name)) for name in self.vm.CM.get_type_list(proto.get_parameters_off()))
        return MethodRef(self.type(item.get_class_idx()), self.text(item.get_name_idx()), parameters,
                         self.type(proto.get_return_type_idx()), static)

    def classes(self) -> list[AppClass]:
        """The classes that the file defines."""
        try:
            return [self._class(item) for item in self.class_items]
        except Exception as fault:  # as above
            raise DexFault(f"The classes of {self.name} could not be read by androguard ({type(fault).__name__}), "
                           "so what they hold is not shown.") from None

    def _class(self, item: Any) -> AppClass:
        name = self.type(item.get_class_idx())
        above = item.get_superclass_idx()
        source = item.get_source_file_idx()
        file = self.text(source) if source != NO_INDEX else ""
        interfaces = tuple(printed(bytes(one)) for one in self.vm.CM.get_type_list(item.get_interfaces_off()))
        methods = [self._method(name, file, one) for one in item.get_methods()]
        return AppClass(name, self.type(above) if above != NO_INDEX else "", interfaces, methods)

    def _method(self, class_name: str, file: str, item: Any) -> Method:
        flags = item.get_access_flags()
        ref = self.ref(item.get_method_idx(), bool(flags & STATIC))
        native = bool(flags & NATIVE)
        code = None
        if item.get_code_off() and not native:
            code = self.vm.CM.get_code(item.get_code_off())
            if code is None:
                raise DexFault(f"The map of {self.name} does not name all code, so what it holds is not shown.")
        return Method(class_name, ref.name, ref.descriptor, ref.static, native, code, self.name, file,
                      _reads=self.sweep)

    def sweep(self, code: Any) -> Iterator[Instruction]:
        """The instructions of a method, first to last; stops where androguard can't go on."""
        pc = 0
        try:
            for one in code.get_bc().get_instructions():
                yield self._instruction(pc, one)
                pc += one.get_length() // 2
        except Exception:  # as above: what was read stays
            return

    def _instruction(self, pc: int, one: Any) -> Instruction:
        op = one.get_op_value()
        if op > 0xFF:
            return Instruction(pc, printed(one.get_name().encode(), " "), one.get_length())
        if op not in INVOKES | STRINGS | TYPES | FIELDS:
            return Instruction(pc, f"{one.get_name()} {one.get_output(pc * 2)}".strip(), one.get_length())
        registers = tuple(value for kind, value, *_ in one.get_operands() if int(kind) == 0)
        names = ", ".join(f"v{number}" for number in registers)
        called = self.ref(one.get_ref_kind(), op in INVOKE_STATIC) if op in INVOKES else None
        named = "" if called else self._named(op, one.get_ref_kind())
        head = f"{{{names}}}" if op in BRACED else names
        text = f"{one.get_name()} {head}, {called or named}"
        return Instruction(pc, text, one.get_length(), called, op in VIRTUAL, registers, named)

    def _named(self, op: int, index: int) -> str:
        if op in STRINGS:
            text = printed(bytes(self.vm.CM.get_raw_string(index)), " ").replace('"', "\\x22")
            return f'"{text}"' if len(text) <= LONGEST_TEXT else f'"{text[:LONGEST_TEXT]}"..'
        if op in TYPES:
            return self.type(index)
        field_id = self.vm.CM.get_field_ref(index)
        kind, name = self.type(field_id.get_type_idx()), self.text(field_id.get_name_idx())
        return f"{self.type(field_id.get_class_idx())}->{name}:{kind}"


class DexCode:
    """All DEX files of an app."""

    def __init__(self, classes: Iterable[AppClass]) -> None:
        self.classes: dict[str, AppClass] = {}
        self.methods: list[Method] = []
        for one in classes:
            self.classes.setdefault(one.name, one)
            self.methods.extend(one.methods)
        self._below: dict[str, list[str]] = {}
        for one in self.classes.values():
            for up in (one.superclass, *one.interfaces):
                self._below.setdefault(up, []).append(one.name)
        self._by_text: dict[str, list[Method]] = {}
        for method in self.methods:
            self._by_text.setdefault(str(method), []).append(method)
        self.numbered = [method for method in self.methods if method.native or method.code is not None]
        self.numbered.sort(key=lambda method: tuple(unprinted(text) for text in
                                                    (method.class_name, method.name, method.descriptor)))
        for number, method in enumerate(self.numbered):
            method.index = number

    @staticmethod
    def read(paths: Iterable[Path]) -> DexCode:
        """Reads DEX files in their order. Raises `DexFault`."""
        classes: list[AppClass] = []
        for path in paths:
            tell(f"reading {printed(path.name.encode())}")
            try:
                data = path.read_bytes()
            except OSError as fault:
                raise DexFault(f"{printed(path.name.encode())} could not be read ({fault.strerror}).") from None
            classes.extend(_File(printed(path.name.encode()), data).classes())
        tell("")
        return DexCode(classes)

    def method(self, text: str) -> Method | None:
        """The method that is printed so, or `None` where there is none, or more than one."""
        found = self._by_text.get(text, [])
        return found[0] if len(found) == 1 else None

    def at(self, place: Place) -> Instruction | None:
        """The instruction at a place of a report, or `None`."""
        method = self.method(place.method)
        return None if method is None else method.at(place.pc)

    def upward(self, name: str) -> Iterator[AppClass]:
        """The app's classes from a name upward along superclasses."""
        seen: set[str] = set()
        while name in self.classes and name not in seen:
            seen.add(name)
            yield self.classes[name]
            name = self.classes[name].superclass

    def has_body(self, class_name: str, ref: MethodRef) -> bool:
        """Does a class of the app from here upward define the method, with code or as native?"""
        return any(method.name == ref.name and method.descriptor == ref.descriptor
                   and (method.native or method.code is not None)
                   for one in self.upward(class_name) for method in one.methods)

    def library_classes(self, name: str) -> list[str]:
        """The library classes of a class (`docs/MACHINE.md`): the nearest outside the app, in order."""
        if name.startswith("["):
            return ["Ljava/lang/Object;"]
        if name not in self.classes:
            return [name]
        found: dict[str, None] = {}
        self._gather(name, found, set())
        return list(found)

    def _gather(self, name: str, found: dict[str, None], seen: set[str]) -> None:
        todo = [name]
        while todo:
            one = todo.pop()
            if one not in self.classes:
                found.setdefault(one)
            elif one not in seen:
                seen.add(one)
                above = self.classes[one]
                todo.extend(reversed([up for up in (above.superclass, *above.interfaces) if up]))

    def below(self, name: str) -> list[str]:
        """The class and the app's classes that stand below it, through interfaces too."""
        kept: list[str] = [name]
        seen = {name}
        for at in kept:
            for sub in self._below.get(at, []):
                if sub not in seen:
                    seen.add(sub)
                    kept.append(sub)
        return kept

    def unsummarised(self, instruction: Instruction,
                     has_summary: Callable[[list[str]], bool] | None = None) -> list[str]:
        """The library classes at which a call may have come to a method without a row.

        Where the call names a class outside the app it is that one. Else the object's class decides in a virtual call:
        of each app class below the named one that has no body for the method, and of whose library classes
        `has_summary` does not say that the lists tell of it, the library classes, `java.lang.Object` last.
        """
        ref = instruction.called
        if ref is None:
            return []
        if ref.class_name not in self.classes:
            return self.library_classes(ref.class_name)
        names = self.below(ref.class_name) if instruction.virtual else [ref.class_name]
        found: dict[str, None] = {}
        for name in names:
            libraries = self.library_classes(name)
            if not self.has_body(name, ref) and not (has_summary and has_summary(libraries)):
                found.update(dict.fromkeys(libraries))
        return sorted(found, key=lambda library: library == "Ljava/lang/Object;")
