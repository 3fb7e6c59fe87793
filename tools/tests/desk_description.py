"""docs/openapi.json, and replies held against it."""

from __future__ import annotations

import json
import re
from typing import Any

import jsonschema

from tests.desk_at_work import TOP


class Description:
    """The description of the desk's routes."""

    def __init__(self) -> None:
        self.form: dict[str, Any] = json.loads((TOP / "docs/openapi.json").read_text())

    def resolved(self, value: Any) -> Any:
        """The value with each `$ref` replaced by what it names, and `nullable` as JSON Schema says it."""
        if isinstance(value, list):
            return [self.resolved(one) for one in value]
        if not isinstance(value, dict):
            return value
        if "$ref" in value:
            found: Any = self.form
            for part in value["$ref"].removeprefix("#/").split("/"):
                found = found[part]
            return self.resolved(found)
        made = {name: self.resolved(one) for name, one in value.items()}
        if made.pop("nullable", False):
            made["type"] = [made["type"], "null"]
        return made

    def operations(self) -> dict[tuple[str, str], dict[str, Any]]:
        """Each operation by its method and path."""
        return {
            (method.upper(), path): self.resolved(operation)
            for path, page in self.form["paths"].items()
            for method, operation in page.items() if method in ("get", "post")
        }

    def operation(self, method: str, path: str) -> dict[str, Any]:
        """The operation of a request."""
        for (asked, form), operation in self.operations().items():
            if asked == method and re.fullmatch(re.sub(r"\\{\w+\\}", "[^/]+", re.escape(form)), path):
                return operation
        raise AssertionError(f"{method} {path} is in no description")

    def check(self, method: str, path: str, status: int, kind: str, body: bytes) -> None:
        """Raises where the reply is none that the description has."""
        responses = self.operation(method, path)["responses"]
        if str(status) not in responses:
            raise AssertionError(f"{method} {path}: {status} {body!r} is in no description")
        content = responses[str(status)]["content"]
        if kind not in content:
            raise AssertionError(f"{method} {path}: {status} is {kind}, and not {list(content)}")
        value = json.loads(body) if kind == "application/json" else body.decode()
        fault = next(jsonschema.Draft4Validator(content[kind]["schema"]).iter_errors(value), None)
        if fault is not None:
            raise AssertionError(f"{method} {path}: {status} {body!r}: {fault.message}")
