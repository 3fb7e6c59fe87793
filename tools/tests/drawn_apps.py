"""Small apps drawn from a seed: an activity, helpers that call one another, and objects that hold each other.

A drawn app has a branch in most methods, so that runs differ; `app_runs` runs it. A *plain* one has no calls by the
class of an object, no callbacks and nothing that the library gives back.
"""
from __future__ import annotations

from dataclasses import dataclass

from tests.small_dex import OBJECT, AppClass, Called, Code, Instruction, dex_of

BUNDLE, TEXT, BOX, MAIN, BASE, HELPERS, CALLED = ("Landroid/os/Bundle;", "Lx/Text;", "Lx/Box;", "La/Main;", "Lh/Base;",
                                                  "Lh/Helpers;", "Lx/Called;")
DEVICE_ID = Called("Lvendor/Device;", "id", (), OBJECT)
PHONE = Called("Lvendor/Device;", "phone", (), "I")
POST = Called("Lvendor/Net;", "post", (OBJECT,), "V")
WRITE = Called("Lvendor/Log;", "write", (OBJECT,), "V")
PUT, GET, COPY = Called(BOX, "put", (OBJECT,), "V"), Called(BOX, "get", (), OBJECT), Called(BOX, "copy", (BOX,), "V")
OF, SAME = Called(TEXT, "of", (OBJECT,), TEXT), Called(TEXT, "same", (OBJECT,), OBJECT)
STORE, LOAD = Called("Lx/Keep;", "store", (OBJECT,), "V"), Called("Lx/Keep;", "load", (), BOX)
GIVE, BACK = Called("Lx/Hand;", "give", (OBJECT,), "V"), Called("Lx/Hand;", "back", (), OBJECT)
MET, BODY = "m", "called"
EVENTS = {"onCreate": (BUNDLE,), "onResume": (), "onPause": (), "onDestroy": ()}
CATEGORIES = ("device_id", "phone", "network", "log")
MANIFEST = f'package = "a"\ndex_files = 1\n[[component]]\nkind = "activity"\nclass = "{MAIN}"\n'


def _row(called: Called, *lines: str) -> str:
    """A row of the lists for a static method, or for one of a box."""
    proto = f"({''.join(called.parameters)}){called.gives}"
    head = f'[[method]]\nclass = "{called.owner}"\nname = "{called.name}"\nproto = "{proto}"\n'
    return "\n".join([head + ("" if called in (PUT, GET, COPY) else "static = true"), *lines, ""])


def lists_of(is_plain: bool) -> str:
    """The lists of drawn apps, behind their line of `rows`. Those of plain ones have no callback."""
    parts = ['categories = ["device_id", "phone", "network", "log"]\n']
    parts += [f'[[class]]\nname = "{name}"\n' + (f'parents = ["{OBJECT}"]\n' if name != OBJECT else "")
              + ('default = "blank"\n' if name in (OBJECT, "Landroid/app/Activity;") else "")
              for name in (OBJECT, "Landroid/app/Activity;", BUNDLE, "Lvendor/Device;", "Lvendor/Net;", "Lvendor/Log;",
                           BOX, TEXT, "Lx/Keep;", "Lx/Hand;", CALLED)]
    parts.append(f'[[shared]]\nname = "kept"\nclass = "{BOX}"\n')
    parts += [_row(DEVICE_ID, 'source = "device_id"'), _row(PHONE, 'source = "phone"'),
              _row(POST, 'sink = "network"', "positions = [0]"), _row(WRITE, 'sink = "log"', "positions = [0]"),
              _row(PUT, "puts = [[1, 0]]"), _row(GET, 'result = "taken"', "from = [0]"),
              _row(COPY, "copies = [[1, 0]]"), _row(OF, 'result = "joined"', "from = [0]"),
              _row(SAME, 'result = "same"', "from = [0]"),
              _row(STORE, 'stores = [[0, "kept"]]'), _row(LOAD, 'result = "shared"', 'shared = "kept"'),
              _row(GIVE), _row(BACK, 'result = "handed"')]
    if not is_plain:
        parts.append(f'[[callback]]\nclass = "{CALLED}"\nname = "{BODY}"\nproto = "({OBJECT})V"\n'
                     'sources = [[1, "phone"]]\n')
    return "\n".join(parts)


class Draws:
    """Numbers by a linear congruence of 64 bits, of which the upper 31 are taken."""

    def __init__(self, seed: int) -> None:
        self.state = seed

    def below(self, limit: int) -> int:
        """A number below this one."""
        self.state = (self.state * 6364136223846793005 + 1442695040888963407) % 2 ** 64
        return (self.state >> 33) % limit


@dataclass(frozen=True)
class DrawnApp:
    """A drawn app."""
    classes: tuple[AppClass, ...]
    is_plain: bool

    def files(self, rows: int, *words: str) -> dict[str, bytes]:
        """The files of its folder, under lists of so many rows and these lines more."""
        lists = "\n".join([f"rows = {rows}", *words, lists_of(self.is_plain)])
        return {"manifest.toml": MANIFEST.encode(), "layouts.toml": b"", "declaration.toml": b"",
                "lists.toml": lists.encode(), "classes.dex": dex_of(list(self.classes))}


class _Drawing:
    """Draws the bodies of one app. The registers 0 to 4 are locals, and 5 and 6 are arguments."""

    def __init__(self, seed: int, is_plain: bool) -> None:
        self.draws, self.is_plain = Draws(seed), is_plain
        self.helpers = [Called(HELPERS, f"h{number}", (OBJECT, OBJECT), OBJECT) for number in range(3)]
        self.kinds = [BASE, "Lh/One;", "Lh/Two;"]

    def local(self) -> int:
        """A local, 0 less often than the others."""
        return self.draws.below(5) or self.draws.below(5)

    def held(self, arguments: tuple[int, ...]) -> int:
        """A local, or an argument."""
        return arguments[self.draws.below(len(arguments))] if arguments and self.draws.below(3) == 0 else self.local()

    def own_field(self) -> tuple[str, str]:
        return BASE, f"f{self.draws.below(3)}"

    def line(self, arguments: tuple[int, ...], component: int | None) -> list[Instruction]:
        """The instructions of one line; `component` is the register of the activity, where there is one."""
        draws, local, held = self.draws, self.local, lambda: self.held(arguments)
        kind = draws.below(22 if self.is_plain else 28)
        if kind < 2:
            return [("new", local(), self.kinds[draws.below(3)])]
        if kind < 5:
            return [("iput", held(), held(), self.own_field())]
        if kind < 8:
            return [("iget", local(), held(), self.own_field())]
        if kind < 10 and component is not None:
            field = MAIN, f"t{draws.below(2)}"
            return [("iput", held(), component, field) if kind == 8 else ("iget", local(), component, field)]
        if kind < 12:
            static = BASE, f"g{draws.below(2)}"
            return [("sput", held(), static) if kind != 11 else ("sget", local(), static)]
        if kind < 14:
            return [("call", self.helpers[draws.below(3)], held(), held()), ("result", local())]
        if kind == 14:
            return [("call", DEVICE_ID), ("result", local())]
        if kind == 15:
            return [("call", (POST, WRITE)[draws.below(2)], held())]
        return self._of_library(kind, held) if kind < 22 else self._by_class(held)

    def _of_library(self, kind: int, held) -> list[Instruction]:  # type: ignore[no-untyped-def]
        """A line that makes a box or an array, puts into it or gets from it, joins, or asks the shared object."""
        draws, local = self.draws, self.local
        if kind == 16:
            made = local()
            return [("new", made, BOX), ("virtual", PUT, made, held())]
        if kind == 17:
            return [("virtual", GET, held()), ("result", local())]
        if kind == 18:
            return [("virtual", COPY, held(), held())]
        if kind == 19:
            return [("call", (OF, SAME)[draws.below(2)], held()), ("result", local())]
        if kind == 20:
            array, index = local(), local()
            return [[("const", index), ("new_array", array, index), ("aput", held(), array, index)],
                    [("aget", local(), held(), index)], [("aput", held(), held(), index)],
                    [("call", PHONE), ("result", index), ("new_array", array, index)],
                    [("call", PHONE), ("result", index), ("join", array, index, held())]][draws.below(5)]
        if draws.below(2):
            return [("call", STORE, held())]
        return [("call", LOAD), ("result", local())]

    def _by_class(self, held) -> list[Instruction]:  # type: ignore[no-untyped-def]
        """A line that hands an object over, takes one back, or calls by the class of an object."""
        kind = self.draws.below(4)
        if kind == 0:
            return [("call", GIVE, held())]
        if kind == 1:
            return [("call", BACK), ("result", self.local())]
        return [("virtual", Called(BASE, MET, (OBJECT,), OBJECT), held(), held()), ("result", self.local())]

    def body(self, code: Code, arguments: tuple[int, ...], component: int | None) -> Code:
        """Draws the body of a method: locals that are made, lines, a branch past some of them, and the end."""
        lines: list[list[Instruction]] = [[("const", 0)], [("new", 1, self.kinds[self.draws.below(3)])],
                                          [("new", 2, BASE)], [("move", 3, self.held(arguments))], [("const", 4)]]
        if self.draws.below(3) == 0:
            lines.append([("call", DEVICE_ID), ("result", 1 + self.draws.below(4))])
        lines += [self.line(arguments, component) for _ in range(4 + self.draws.below(6))]
        if self.draws.below(3) == 0:
            lines.append([("call", (POST, WRITE)[self.draws.below(2)], self.held(arguments))])
        begins = [sum(len(line) for line in lines[:number]) for number in range(len(lines) + 1)]
        branch = 5 + self.draws.below(len(lines) - 5)
        past = branch + 1 + self.draws.below(len(lines) - branch)
        code.body = [one for line in lines[:branch] for one in line] + [("if", 0, begins[past] + 1)]
        code.body += [one for line in lines[branch:] for one in line]
        ends: list[Instruction] = [("return", self.local())] if code.called.gives != "V" else [("end",)]
        if self.draws.below(5) == 0:
            ends = [("throw", self.local())]
        if self.draws.below(3) == 0:
            code.guarded, code.handler = len(code.body), len(code.body) + len(ends)
            ends += [("caught", 3), ("call", WRITE, 3), ("return", 3) if code.called.gives != "V" else ("end",)]
        code.body += ends
        return code

    def method(self, owner: str, name: str, parameters: tuple[str, ...], gives: str, is_static: bool = False) -> Code:
        """A method, whose receiver or first argument stands in register 5."""
        code = Code(Called(owner, name, parameters, gives), is_static, 0)
        code.registers = 5 + code.ins
        arguments = tuple(range(5, code.registers))
        return self.body(code, arguments, 5 if owner == MAIN and not is_static else None)

    def app(self) -> DrawnApp:
        """The app: its activity, the helpers, and three classes, two of them below the first."""
        events = [self.method(MAIN, name, parameters, "V") for name, parameters in EVENTS.items()]
        helpers = [self.method(HELPERS, one.name, one.parameters, one.gives, True) for one in self.helpers]
        met: list[list[Code]] = [[], [], []]
        if not self.is_plain:
            met = [[self.method(kind, MET, (OBJECT,), OBJECT)] for kind in self.kinds]
            met[1].append(self.method(self.kinds[1], BODY, (OBJECT,), "V"))
            if self.draws.below(2):
                events.append(self.method(MAIN, BODY, (OBJECT,), "V"))
        called = () if self.is_plain else (CALLED,)
        return DrawnApp((
            AppClass(BASE, fields=("f0", "f1", "f2"), statics=("g0", "g1"), methods=met[0]),
            AppClass("Lh/One;", BASE, called, methods=met[1]), AppClass("Lh/Two;", BASE, methods=met[2]),
            AppClass(HELPERS, methods=helpers),
            AppClass(MAIN, "Landroid/app/Activity;", called, ("t0", "t1"), methods=events)), self.is_plain)


def drawn(seed: int, is_plain: bool) -> DrawnApp:
    """The app of this seed."""
    return _Drawing(seed, is_plain).app()
