"""Types and methods as Java writes them."""
from __future__ import annotations

from vet_tools.dex_code import Method, MethodRef

PRIMITIVES = {"V": "void", "Z": "boolean", "B": "byte", "S": "short", "C": "char", "I": "int", "J": "long",
              "F": "float", "D": "double"}


def java_type(descriptor: str) -> str:
    """A type as Java writes it: `[Ljava/lang/String;` is `java.lang.String[]`."""
    name = descriptor.lstrip("[")
    depth = len(descriptor) - len(name)
    if name.startswith("L") and name.endswith(";"):
        name = name[1:-1].replace("/", ".")
    return PRIMITIVES.get(name, name) + "[]" * depth


def java_method(ref: MethodRef, with_result: bool = True) -> str:
    """A method as Java writes it: `void vendor.Net.post(java.lang.Object)`."""
    arguments = ", ".join(java_type(one) for one in ref.parameters)
    result = f"{java_type(ref.result)} " if with_result else ""
    return f"{result}{java_type(ref.class_name)}.{ref.name}({arguments})"


def split_types(descriptor: str) -> tuple[tuple[str, ...], str]:
    """The parameters and the result of a method's descriptor."""
    inner, _, result = descriptor[1:].rpartition(")")
    found, at = [], 0
    while at < len(inner):
        end = at
        while end < len(inner) - 1 and inner[end] == "[":
            end += 1
        if inner[end] == "L":
            end = inner.find(";", end)
            end = len(inner) - 1 if end < 0 else end
        found.append(inner[at:end + 1])
        at = end + 1
    return tuple(found), result


def java_place(method: Method) -> str:
    """The method of a place as Java writes it, without its result."""
    parameters, result = split_types(method.descriptor)
    return java_method(MethodRef(method.class_name, method.name, parameters, result, method.static), False)
