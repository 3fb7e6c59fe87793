"""The pages of the reviewer's desk as HTML. Every text of a stranger goes through `escaped` or `prose`."""

from __future__ import annotations

from dataclasses import dataclass

from vet_tools.desk_cases import Case, Entry, Line, State
from vet_tools.desk_client import Told
from vet_tools.office import day_text
from vet_tools.report_words import Part, outcome_words, parts_of
from vet_tools.shown import counted, escaped, prose, size

# How many lines of a report, and how many bytes of a form, a page shows; the rest stands behind a link.
LINES_SHOWN = 500
FORM_SHOWN = 100_000
WORDS = {"clear", "flagged", "undecided", "refused", "uphold", "overturn"}


@dataclass(frozen=True)
class Frame:
    """What every page has: the way to the other ones, who asks, and the day."""

    root: str
    office: str
    who: str
    today: int
    appeal_days: int | None


@dataclass(frozen=True)
class Lists:
    """The first page's lists, and how many cases each has in all."""

    queue: list[Line]
    queued: int
    appeals: list[Line]
    appealed: int
    decided: list[Line]
    words: str
    page: int
    has_more: bool


def page(frame: Frame, title: str, body: str, refresh: int | None = None) -> bytes:
    """A whole page. With `refresh` it is asked for again after so many seconds."""
    again = f'<meta http-equiv="refresh" content="{refresh}">' if refresh else ""
    return f"""<!DOCTYPE html>
<html lang="en">
<head>
<meta charset="utf-8">
<meta name="viewport" content="width=device-width, initial-scale=1">
{again}
<title>{escaped(title)}</title>
<link rel="stylesheet" href="{frame.root}style.css">
<link rel="icon" href="data:,">
</head>
<body>
<a class="skip" href="#main">To the content</a>
<header><strong><a href="{frame.root}">Reviewer's desk</a></strong>
<span>office <bdi>{escaped(frame.office)}</bdi></span><span>as <bdi>{escaped(frame.who)}</bdi></span>
<span>today is {day_text(frame.today)} (UTC)</span></header>
<main id="main">
{body}
</main>
<footer>This page is a client of the desk: it shows a copy of the desk's cases and hands commands on. What an app's
outcome is, the proved program said; nothing here decides.</footer>
</body>
</html>
""".encode("utf-8")


def told_part(told: Told | None) -> str:
    """What came of the last command."""
    if told is None:
        return ""
    return f'<p class="told{"" if told.done else " not"}" role="status">{escaped(told.text)}</p>'


def button(frame: Frame, act: str, label: str, fields: dict[str, str], plain: bool = False) -> str:
    """A form of one button. `fields` has its nonce, and what the command needs."""
    hidden = "".join(
        f'<input type="hidden" name="{escaped(name)}" value="{escaped(value)}">' for name, value in fields.items()
    )
    kind = ' class="plain"' if plain else ""
    return f'<form method="post" action="{frame.root}{act}">{hidden}<button{kind}>{escaped(label)}</button></form>'


def _word(word: bytes | None) -> str:
    text = escaped(word or b"")
    return f'<span class="word {text}">{text}</span>' if text in WORDS else text


def _name(frame: Frame, line: Line) -> str:
    return f'<a href="{frame.root}case/{line.number}"><bdi>{escaped(line.reference)}</bdi></a>'


def _table(caption: str, heads: list[tuple[str, str]], rows: list[list[str]]) -> str:
    head = "".join(f'<th scope="col" class="{kind}">{text}</th>' for text, kind in heads)
    kinds = [kind for _, kind in heads]
    body = "\n".join(
        "<tr>" + "".join(f'<td class="{kind}">{cell}</td>' for kind, cell in zip(kinds, row)) + "</tr>" for row in rows
    )
    inner = f"<caption>{caption}</caption><thead><tr>{head}</tr></thead><tbody>\n{body}\n</tbody>"
    return f'<div class="scroll"><table>{inner}</table></div>'


def _developer(line: Line) -> str:
    return f"<bdi>{escaped(line.developer)}</bdi>"


def _day(day: int | None) -> str:
    return "" if day is None else day_text(day)


def _queue_part(frame: Frame, lists: Lists, decide: str) -> str:
    if not lists.queue:
        return '<h2 id="queue">Queue</h2>\n<p class="note">No case waits for a decision.</p>'
    heads = [("Place", "number"), ("Developer", ""), ("Reference", "")]
    rows = [[str(n + 1), _developer(line), _name(frame, line)] for n, line in enumerate(lists.queue)]
    shown = "" if len(rows) == lists.queued else f"; the first {len(rows):,} are shown"
    waiting = f"{counted(lists.queued, 'case waits', 'cases wait')} for a decision{shown}"
    first = lists.queue[0]
    return (
        f'<h2 id="queue">Queue</h2>\n{decide}\n<p class="note">The desk judges the first case of its queue, now'
        f" {_developer(first)} {_name(frame, first)}. An app of many methods takes minutes.</p>\n"
        + _table(waiting, heads, rows)
    )


def _appeals_part(frame: Frame, lists: Lists) -> str:
    if not lists.appeals:
        return '<h2 id="appeals">Appeals</h2>\n<p class="note">No appeal waits for a ruling.</p>'
    heads = [("Appealed", "day"), ("Developer", ""), ("Reference", ""), ("Outcome", ""), ("Decided", "day"), ("By", "")]
    rows = [
        [_day(line.appealed), _developer(line), _name(frame, line), _word(line.outcome), _day(line.day),
         f"<bdi>{escaped(line.reviewer or b'')}</bdi>"]
        for line in lists.appeals
    ]
    shown = "" if len(rows) == lists.appealed else f"; the oldest {len(rows):,} are shown"
    waiting = f"{counted(lists.appealed, 'appeal waits', 'appeals wait')} for a ruling{shown}"
    return '<h2 id="appeals">Appeals</h2>\n' + _table(waiting, heads, rows)


def _decided_part(frame: Frame, lists: Lists) -> str:
    search = (
        f'<form method="get" action="{frame.root}" role="search"><label for="words">Developer or reference</label>'
        f'<input type="search" id="words" name="words" maxlength="64" value="{escaped(lists.words)}">'
        '<button class="plain">Search</button></form>'
    )
    heads = [("Decided", "day"), ("Developer", ""), ("Reference", ""), ("Outcome", ""), ("By", ""), ("State", "")]
    rows = [
        [_day(line.day), _developer(line), _name(frame, line), _word(line.outcome),
         f"<bdi>{escaped(line.reviewer or b'')}</bdi>", line.state.value]
        for line in lists.decided
    ]
    caption = f"with <bdi>{escaped(lists.words)}</bdi>, the latest first" if lists.words else "the latest first"
    found = _table(caption, heads, rows) if rows else '<p class="note">None.</p>'
    return f'<h2 id="decided">Decided cases</h2>\n{search}\n{found}\n{_turns(frame, lists)}'


def _turns(frame: Frame, lists: Lists) -> str:
    links = []
    words = "".join(f"%{byte:02X}" for byte in lists.words.encode("utf-8", "surrogateescape"))
    if lists.page > 0:
        links.append(f'<a href="{frame.root}?words={words}&amp;page={lists.page - 1}#decided">Later ones</a>')
    if lists.has_more:
        links.append(f'<a href="{frame.root}?words={words}&amp;page={lists.page + 1}#decided">Earlier ones</a>')
    return f"<nav>{' · '.join(links)}</nav>" if links else ""


def first_page(frame: Frame, lists: Lists, told: Told | None, decide: str) -> bytes:
    """The queue, the open appeals and the decided cases. `decide` is the form that has the first case judged."""
    parts = [told_part(told), "<h1>Cases</h1>"]
    if lists.words or lists.page:
        parts += [_decided_part(frame, lists), f'<p><a href="{frame.root}">Queue and appeals</a></p>']
    else:
        parts += [_appeals_part(frame, lists), _queue_part(frame, lists, decide), _decided_part(frame, lists)]
    return page(frame, "Cases", "\n".join(parts))


def _report_part(frame: Frame, case: Case, place: int, entry: Entry) -> str:
    first, parts = parts_of(entry.report)
    word = first.split(b" ")[0].decode("ascii", "replace")
    text = [f"<h3>Report</h3>\n<pre>{escaped(first)}</pre>", f'<p class="note">{escaped(outcome_words(word))}</p>']
    room = LINES_SHOWN
    for part in parts:
        text.append(_lines_part(part, room))
        room = max(0, room - len(part.lines))
    link = f'<a href="{frame.root}case/{case.number}/report/{place}">the whole report as plain text</a>'
    text.append(f'<p class="only-screen">See {link} ({size(len(entry.report))}).</p>')
    return "\n".join(text)


def _lines_part(part: Part, room: int) -> str:
    shown = "\n".join(escaped(line) for line in part.lines[:room])
    missing = len(part.lines) - min(room, len(part.lines))
    more = f'<p class="note">{counted(missing, "line more", "lines more")}</p>' if missing else ""
    block = f"<pre>{shown}</pre>" if shown else ""
    return f"<p><strong>{part.name}</strong> ({len(part.lines):,}): {escaped(part.advice)}</p>\n{block}{more}"


def _entry_part(frame: Frame, case: Case, place: int, entry: Entry, forms: str) -> str:
    rows = [
        ("Decided", f"{day_text(entry.day)} by <bdi>{escaped(entry.reviewer)}</bdi>"),
        ("Lists", f"edition <code>{entry.edition.hex()}</code>"),
    ]
    if frame.appeal_days is not None and entry.appeal is None and entry.outcome in (b"flagged", b"undecided"):
        rows.append(("Appeal", f"none; the last day is {day_text(entry.day + frame.appeal_days)}"))
    head = f"Decision {place + 1}" if len(case.entries) > 1 else "Decision"
    text = [
        f'<section class="entry">\n<h2>{head}: {_word(entry.outcome)}</h2>', _pairs(rows),
        _report_part(frame, case, place, entry),
    ]
    if entry.appeal is not None:
        text.append(f"<h3>Appeal of {day_text(entry.appeal.day)}</h3>")
        text.append(f'<pre class="prose">{prose(entry.appeal.text)}</pre>')
    if entry.ruling is not None:
        by = f"{day_text(entry.ruling.day)} by <bdi>{escaped(entry.ruling.reviewer)}</bdi>"
        text.append(f"<h3>Ruling</h3>\n<p>{by}: {_word(entry.ruling.word)}</p>")
    return "\n".join(text) + f"\n{forms}\n</section>"


def _pairs(rows: list[tuple[str, str]]) -> str:
    return "<dl>" + "".join(f"<dt>{name}</dt><dd>{value}</dd>" for name, value in rows) + "</dl>"


def _form_part(name: str, data: bytes, is_open: bool) -> str:
    cut = f'<p class="note">The first {FORM_SHOWN:,} bytes of {len(data):,}.</p>' if len(data) > FORM_SHOWN else ""
    text = prose(data[:FORM_SHOWN])
    inner = f"{cut}<pre>{text}</pre>" if data.strip() else '<p class="note">It is empty.</p>'
    return f"<details{' open' if is_open else ''}><summary>{name} ({size(len(data))})</summary>{inner}</details>"


def _app_part(frame: Frame, case: Case, looks: str) -> str:
    rows = [
        ["classes.dex" if n == 0 else f"classes{n + 1}.dex", f"<code>{dex.digest}</code>", f"{dex.size:,}"]
        for n, dex in enumerate(case.dex)
    ]
    heads = [("File", ""), ("SHA-256", ""), ("Bytes", "number")]
    link = f'<a href="{frame.root}case/{case.number}/app.zip">the app\'s folder as a ZIP file</a>'
    return "\n".join([
        "<h2>App</h2>",
        _form_part("declaration.toml", case.declaration, is_open=True),
        _form_part("manifest.toml", case.manifest, is_open=False),
        _form_part("layouts.toml", case.layouts, is_open=False),
        _table(counted(len(case.dex), "DEX file"), heads, rows),
        looks,
        f'<p class="only-screen">Take {link}: with the office\'s lists in it, as <code>vet check</code> reads it.</p>',
    ])


def case_page(frame: Frame, case: Case, told: Told | None, forms: str, looks: str) -> bytes:
    """A case: its entries, the latest first, and its app.

    `forms` is what may be asked of the latest entry, `looks` what more there is to see of the app.
    """
    name = f"<bdi>{escaped(case.developer)}</bdi> / <bdi>{escaped(case.reference)}</bdi>"
    state = f'<p>Case {case.number}, <span class="word">{case.state.value}</span>.</p>'
    text = [told_part(told), f"<h1>{name}</h1>", state]
    if case.state is State.QUEUED:
        text.append('<p class="note">It waits for its first decision. The desk judges the first case of its queue.</p>')
    last = len(case.entries) - 1
    for place in range(last, -1, -1):
        text.append(_entry_part(frame, case, place, case.entries[place], forms if place == last else ""))
    text.append(_app_part(frame, case, looks))
    title = f"{case.developer.decode('utf-8', 'replace')} / {case.reference.decode('utf-8', 'replace')}"
    return page(frame, title, "\n".join(text))


def waiting_page(frame: Frame, what: str, seconds: int) -> bytes:
    """That a command is under way; the page asks again by itself."""
    body = (
        f'<h1>{escaped(what)}</h1>\n<p role="status">The desk has been at it for {counted(seconds, "second")}.'
        " An app of many methods takes minutes, and the desk serves one request after the other.</p>"
        '<p class="note">This page asks again every two seconds. Leaving it stops nothing.</p>'
    )
    return page(frame, what, body, refresh=2)


def message_page(frame: Frame, title: str, text: str) -> bytes:
    """A page of one sentence."""
    body = f'<h1>{escaped(title)}</h1>\n<p>{escaped(text)}</p>\n<p><a href="{frame.root}">To the cases</a></p>'
    return page(frame, title, body)
