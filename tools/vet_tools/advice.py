"""What each kind of line of a report says and what to do about it: the words of `docs/REPORT.md`, for pages and texts.

A test holds these words against that page.
"""
from __future__ import annotations

import re
from dataclasses import dataclass

from vet_tools.report import CauseKind, Outcome, Report


@dataclass(frozen=True)
class Advice:
    """What a kind of line says, and what developer and reviewer do next."""
    says: str
    developer: str
    reviewer: str


@dataclass(frozen=True)
class Mend:
    """What is wrong with a refused part, and what to do."""
    wrong: str
    do: str


OUTCOMES: dict[Outcome, Advice] = {
    Outcome.CLEAR: Advice(
        "It is proved: under these lists, no run of the modelled machine brings listed personal data to a listed place "
        "that the declaration does not name.",
        "Nothing.",
        "The reviewer reads the declaration: what it names was not looked for."),
    Outcome.FLAGGED: Advice(
        "Undeclared flows may be there. Each has its line.",
        "The developer removes or declares each flow, or shows that it cannot happen.",
        "The reviewer decides on what is shown."),
    Outcome.UNDECIDED: Advice(
        "The app does things of which nothing certain can be said. Each has its line; findings may follow.",
        "The developer changes what the lines name, or the office extends its lists.",
        "This is neither a clear nor an accusation."),
    Outcome.REFUSED: Advice(
        "The files could not be judged. Only the first fault is named.",
        "The developer, for lists.toml the office, mends that part and hands in again.",
        "The next report may name the next fault."),
}

FINDING = Advice(
    "A value of the source's category may come to the call there, which sends to the sink. The place is the call that "
    "sends, not the one that took the value.",
    "Look at what the call is given, and where that was made. If the flow is meant, declare the pair in "
    "declaration.toml; a declared pair covers every place of the app. If it is not, take the value out. If it cannot "
    "happen, say why.",
    "A finding is no proof that the flow happens. The analysis mixes up, on purpose: what branches decide; the "
    "elements of one array, and all that a library object holds; objects made at one instruction in calls that look "
    "alike; what comes back from a helper called three or more calls deep; fields behind more than five others. Ask "
    "for the way from source to sink; if there is none, the explanation will name one of these.")

CAUSES: dict[CauseKind, Advice] = {
    CauseKind.NO_SUMMARY: Advice(
        "The call there goes to a library method of which the lists say nothing.",
        "Replace the call, or ask for the method to be listed.",
        "Find out what the method does with its arguments and add a row, or a default for its class."),
    CauseKind.NATIVE: Advice(
        "The call there is of a native method of the app, or may run a native initialiser; at @0 of a native method "
        "itself: the system calls it.",
        "Do without native code, or hand it in for review by hand.",
        "No list can help. Review the native code by other means."),
    CauseKind.REFLECTIVE: Advice(
        "The call there runs a method chosen by its name.",
        "Call the method directly.",
        "No list can help, unless the row is wrong to say reflective."),
    CauseKind.PROVIDER: Advice(
        "The manifest has a content provider; what other apps ask of it is not modelled.",
        "Remove the provider.",
        "Review the provider by hand."),
    CauseKind.LAYOUT_CLASS: Advice(
        "A layout makes an object of a class of the app; that is not modelled.",
        "Make the object in code.",
        "Review the class by hand."),
    CauseKind.TOO_LARGE: Advice(
        'More facts follow than the LIMIT of rows in the lists; where these say large = "cells", by the second '
        "analysis as well.",
        "Make the app smaller, for instance by leaving unused code out.",
        'Raise rows, up to 4,000,000, or say large = "cells", and run again.'),
    CauseKind.HIDDEN: Advice(
        "A class further up has a method of this name and descriptor, which a device runs in its place; the machine "
        "takes this one.",
        "Give the method another name, or make it a public one that overrides the other.",
        "Read what the method further up does."),
    CauseKind.INTERFACE_CODE: Advice(
        "The method stands with code in an interface; the machine looks for code in classes alone.",
        "Build with a min-api below 24, or move the code into a class.",
        "Read the method, and who has it from the interface."),
    CauseKind.PLATFORM_CLASS: Advice(
        "The class has a name of the platform, whose own class a device takes.",
        "Give the class a name of your own; what comes with a support library is for the office to list as bundled.",
        "Find out whether devices have a class of this name; if none has, add the beginning to bundled."),
    CauseKind.UNLISTED_CLASS: Advice(
        "A class of the app is below CLASS, of which the lists say nothing, not even what is above it.",
        "Ask for the class to be listed.",
        "Add a class entry with its parents; it needs no default and no rows."),
    CauseKind.LIBRARY_STATIC: Advice(
        "The instruction there puts to a static field of a library class, or gets one that is not listed.",
        "Do without the field.",
        "For one that is got: find out what it holds, and add a [[static]] row where no app can write it, with a"
        " source where that is personal data. One that is put has no row; review by hand."),
    CauseKind.CLICK: Advice(
        "A click may come to the method on what is no activity, or from a menu; in the machine none does.",
        "Set a listener in code.",
        "Add a callback row for the method, or review by hand."),
    CauseKind.NAMED_CLASS: Advice(
        "Another attribute of the manifest or a resource file names the class; what the system does with it is not "
        "modelled.",
        "Do without the attribute.",
        "Review the class by hand."),
}

_REFUSALS: list[tuple[str, Mend]] = [
    ("absent", Mend("The file is not in the folder.",
                    "Hand it in; an empty layouts.toml or declaration.toml will do.")),
    ("longer than 16777216", Mend("The file has more bytes than that.", "Split the DEX file, or shorten the form.")),
    ("longer than 536870912", Mend("The file is too long for a certificate.", "Look whether it is the right file.")),
    ("not toml", Mend("The text is no TOML 1.0 in UTF-8, has a key twice, or a number beyond 64 bits.",
                      "Run it through any TOML checker.")),
    ("missing ", Mend("A key that must be there is not.",
                      "Add it. component.kind is the key kind in a table [[component]]; likewise below.")),
    ("wrong ", Mend("The value is of another type, or none of the words that may stand there.",
                    "See the key in FORMATS.md.")),
    ("unknown ", Mend("There is no such key.", "Remove it; often it is misspelt.")),
    ("range ", Mend("The value is too small, too large, too long or not of its form.",
                    "See the key's limits in FORMATS.md.")),
    ("twice ", Mend("The name stands a second time.", "Remove one.")),
    ("magic", Mend("The file does not begin as a DEX file of version 035.",
                   "Build with a min-api below 24, which gives version 035.")),
    ("header ", Mend("The header's FIELD is not what the file's format asks for; file_size often means that the file "
                     "was cut.", "Build or copy the file anew.")),
    ("outside at ", Mend("The item at byte N goes beyond the file.", "Build anew.")),
    ("index in ", Mend("Row N of the table names something that is not there. For class_data it is the row of the "
                       "class, for handlers and tries the byte at which the code begins.",
                       "Build anew; for obfuscated files, without the obfuscator.")),
    ("text at ", Mend("The name at byte N does not end within the file.",
                      "Build anew; for obfuscated files, without the obfuscator.")),
    ("leb at ", Mend("The number at byte N is too long or cut.",
                     "Build anew; for obfuscated files, without the obfuscator.")),
    ("two classes ", Mend("Two DEX files, or one twice, have a class of this name.", "Leave one out.")),
    ("two members ", Mend("The class has two fields of one name and type, or two methods of one name and descriptor.",
                          "Build anew.")),
    ("no class ", Mend("The manifest names an application, activity, service or receiver that no DEX file has.",
                       "Correct the manifest, or add the file.")),
    ("circle ", Mend("The class is above itself.", "Build anew.")),
    ("code ", Mend("The method's code is not well formed; see below.", "Build anew, without tools that rewrite code.")),
]
_TOO_MANY_TABLE = Mend("The file has more entries than the desk takes.", "Split it, or leave unused code out.")
_TOO_MANY_WHAT = Mend("All files together have more classes, methods, fields or code than the desk takes.",
                      "Leave unused code out.")

FAULTS: dict[str, str] = {
    "opcode": "an instruction that the format does not have",
    "cut": "the instruction goes beyond the code",
    "register": "it names a register that the method does not have, or a call has other than the registers that it "
                "needs",
    "index": "it names a text, type, field or method that is not there",
    "target": "it jumps into the middle of an instruction or out of the code",
    "payload": "the table of cases or of data that it names is not there, or is of another kind",
    "falls off": "control goes on from it to where no instruction is",
    "tries": "the try covers more than the code, or a handler of it begins where no instruction does",
}
_FAULT = re.compile(r"(opcode|cut|register|index|target|payload|falls off|tries)(?: at)? [0-9]+")


def refusal(report: Report) -> Mend | None:
    """What is wrong with a refused part and what to do; `None` for a reason that the page does not have."""
    if report.reason.startswith("too many "):
        return _TOO_MANY_WHAT if report.part == "app" else _TOO_MANY_TABLE
    for head, mend in _REFUSALS:
        if report.reason == head or head.endswith(" ") and report.reason.startswith(head):
            if head == "code ":
                return _of_code(report.reason, mend)
            return mend
    return None


def _of_code(reason: str, mend: Mend) -> Mend:
    match = _FAULT.fullmatch(reason.rsplit(": ", 1)[-1])
    if match is None:
        return mend
    return Mend(f"The method's code is not well formed: {FAULTS[match[1]]}.", mend.do)
