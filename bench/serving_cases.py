"""Writes the connections of crates/desk_cases: what comes on connections of the desk, and the reply that is due to each.

usage: serving_cases.py FOLDER (the folder of the crate; writes files of data/, and what stdout has of them)

What is due is written here by hand, by docs/CASES.md for the cases and by RFC 9110 and RFC 9112 for the bytes of HTTP;
nothing here runs the desk. The form of the files: a line `## TITLE` begins a case, on links that give all at once, take
4,096 bytes and never fail. `keeper CALLS` makes a new keeper, which fails at the calls of these numbers; `day N` and
`edition N` hold from there on; `pieces SIZES`, `room N` and `failing CALLS` say how links are. `> BYTES` comes on a
connection, and `< REPLY` is what is due on it: a whole reply, or `ended`, `read fault`, or `write fault` with a front of
the reply. `each front of BYTES` stands for a connection for each front of them but the whole, `each room of BYTES` for
one for each number of bytes below the length of the reply, of which so many are taken, and `each call of BYTES` for one
for each call of the link, which fails: these count as one. `door N` begins a door, of which N connections are taken at
most: each `> BYTES` behind it is one of them, `taken N` or `taken door fault` is what serving it comes to, and each
`< BYTES` or `< nothing` is what is written on the next one. `store failed REPLY` says what is replied where the keeper
failed, for runs in which it does so at each of its calls in turn. In bytes `\\r` and `\\n` stand for CR and LF, `\\xNN` for
the byte of this number, and `\\{N*TEXT}` for a text N times.
"""
import json
import pathlib
import sys

# The lines of stdout between which the counts of connections stand.
HEAD, NEXT = "connections, over a keeper in memory\n", "databases\n"

PHRASES = {
    200: "OK", 201: "Created", 400: "Bad Request", 401: "Unauthorized", 403: "Forbidden", 404: "Not Found",
    405: "Method Not Allowed", 409: "Conflict", 411: "Length Required", 413: "Payload Too Large",
    422: "Unprocessable Entity", 431: "Request Header Fields Too Large", 503: "Service Unavailable",
}
REPORTS = {
    "clear": "clear\n",
    "flagged": "flagged 1\nid -> net at La/Main;->go()V @12\n",
    "undecided": "undecided 1\nnative: La/Main;->go()V @12\n",
    "refused": "refused classes.dex: magic\n",
}


def escaped(data):
    """The text that stands for bytes; a byte that comes thirty times or oftener is written as a run, and no bytes as one
    of none."""
    text, at = "" if data else "\\{0*a}", 0
    while at < len(data):
        byte, end = data[at], at
        while end < len(data) and data[end] == byte:
            end += 1
        if end - at >= 30 and chr(byte).isalnum():
            text += "\\{%d*%c}" % (end - at, byte)
            at = end
            continue
        at += 1
        if byte == 13:
            text += "\\r"
        elif byte == 10:
            text += "\\n"
        elif 32 <= byte <= 126 and byte != 92:
            text += chr(byte)
        else:
            text += "\\x%02x" % byte
    return text[:-1] + "\\x20" if text.endswith(" ") else text


def compact(value):
    return json.dumps(value, separators=(",", ":"), sort_keys=True, ensure_ascii=False).encode()


def reply(status, body, media="application/json"):
    head = f"HTTP/1.1 {status} {PHRASES[status]}\r\ncontent-type: {media}\r\ncontent-length: {len(body)}\r\n"
    return (head + "connection: close\r\n\r\n").encode() + body


def due(status, value):
    return reply(status, compact(value))


def error(status, text):
    return due(status, {"error": text})


def report(outcome):
    return reply(200, REPORTS[outcome].encode(), "text/plain")


def request(who, method, target, body=None, fields=()):
    """A request with the token of a party, and the length of its body where it has one."""
    lines = [f"{method} {target} HTTP/1.1"]
    if who:
        lines.append(f"x-desk-token: {who}-token")
    if body is not None:
        lines.append(f"content-length: {len(body)}")
    lines += fields
    return "\r\n".join(lines).encode() + b"\r\n\r\n" + (body or b"")


def app(reference, declaration="flagged", **others):
    """The body of a submission; its outcome is the one whose first letter its declaration has."""
    fields = {
        "reference": reference, "manifest": "manifest", "layouts": "", "declaration": declaration, "dex": ["ZGV4Cg=="],
    }
    return compact({**fields, **others})


def altered(name, value):
    """The body of a submission of which a field is another."""
    return compact({**json.loads(app("r2")), name: value})


def submit(who, reference, declaration="flagged"):
    return request(who, "POST", "/cases", app(reference, declaration))


def get(who, target):
    return request(who, "GET", target)


def show(who, reference):
    return get(who, f"/cases/{reference}")


def decide(who):
    return request(who, "POST", "/decisions", b"")


def appeal(who, reference, text="why"):
    return request(who, "POST", f"/cases/{reference}/appeal", compact({"text": text}))


def review(who, developer, reference):
    return request(who, "POST", "/reviews", compact({"developer": developer, "reference": reference}))


def rule(who, developer, reference, ruling="uphold"):
    body = {"developer": developer, "reference": reference, "ruling": ruling}
    return request(who, "POST", "/rulings", compact(body))


def state(reference, word):
    return {"reference": reference, "state": word}


def decided(developer, reference, outcome):
    return due(200, {"developer": developer, "outcome": outcome, "reference": reference})


def ruled(developer, reference, ruling):
    return due(200, {"developer": developer, "reference": reference, "ruling": ruling})


def shown(reference, word, editions, decided_on=None, outcome=None, appealed_on=None, ruling=None):
    return due(200, {
        "appeal": appealed_on, "decided": decided_on, "editions": editions, "outcome": outcome, "reference": reference,
        "ruling": ruling, "state": word,
    })


def listed(*cases):
    return due(200, {"cases": list(cases)})


NO_CASE = error(404, "no such case")
NO_ROUTE = error(404, "no route")
NO_TOKEN = error(401, "no such token")
WRONG_ROLE = error(403, "wrong role")
NOT_JSON = error(400, "not json")
BAD = error(400, "bad request")
NO_LENGTH = error(411, "length required")
TOO_LONG = error(413, "body too long")
BIG_HEAD = error(431, "head too long")
STORE_FAILED = error(503, "store failed")
ENDED = b"ended"
ONE_CASE = listed(state("r1", "queued"))
# The head of a submission of r1, whose names are of mixed letters and whose token has blanks around it.
REQUEST = b"POST /cases HTTP/1.1\r\nX-Desk-Token:  ann-token \r\ncontent-LENGTH: 96\r\n\r\n"


class Cases:
    """The lines of a file, and how many replies are due by them."""

    def __init__(self):
        self.lines, self.count, self.calls = [], 0, 0

    def line(self, text):
        self.lines.append(text)

    def case(self, title, *settings):
        self.lines += [f"## {title}", *settings]

    def turn(self, bytes_, reply_, calls=0):
        """What comes, what is due, and how many calls of the keeper that takes."""
        self.lines += [f"> {escaped(bytes_)}", f"< {escaped(reply_)}"]
        self.count += 1
        self.calls += calls

    def unchanged(self, title, *turns):
        """Turns that change nothing, and behind each the list of the one case that there is."""
        self.case(title)
        for bytes_, reply_ in turns:
            self.turn(bytes_, reply_)
            self.turn(get("ann", "/cases"), ONE_CASE)

    def each(self, what, bytes_, reply_, count):
        self.lines += [f"each {what} of {escaped(bytes_)}", f"< {escaped(reply_)}"]
        self.count += count

    def door(self, most, inputs, turns):
        """A door, and the pairs of what serving it comes to and what was then written on the next connections."""
        self.line(f"door {most}")
        self.lines += [f"> {escaped(bytes_)}" for bytes_ in inputs]
        for taken, replies in turns:
            self.line(f"taken {taken}")
            self.lines += [f"< {escaped(reply_)}" for reply_ in replies]
            self.count += 1 + len(replies)

    def write(self, path):
        path.write_text("\n".join(self.lines) + "\n")


def day():
    """The worked case of docs/CASES.md, over HTTP. A submission asks the keeper twice and adds once, a list, a show and a
    report ask once, and whatever is decided, appealed or ruled is asked for once and kept once."""
    c = Cases()
    c.line(f"store failed {escaped(STORE_FAILED)}")
    c.case("an app is submitted", "keeper", "day 100", "edition 1")
    c.turn(submit("ann", "r1"), due(201, state("r1", "queued")), 3)
    c.case("the same again, and another app as r1")
    c.turn(submit("ann", "r1"), due(200, state("r1", "queued")), 2)
    c.turn(submit("ann", "r1", "clear"), error(409, "other content under this reference"), 2)
    c.case("another developer sees no case, and the own one is queued")
    c.turn(show("bob", "r1"), NO_CASE, 1)
    c.turn(get("bob", "/cases"), listed(), 1)
    c.turn(show("ann", "r1"), shown("r1", "queued", 0), 1)
    c.turn(get("ann", "/cases/r1/report"), error(409, "not decided"), 1)
    c.case("the case is decided, once")
    c.turn(decide("rex"), decided("ann", "r1", "flagged"), 2)
    c.turn(decide("rex"), error(409, "nothing queued"), 1)
    c.turn(show("ann", "r1"), shown("r1", "decided", 1, 100, "flagged"), 1)
    c.case("the developer reads the report, and nobody else")
    c.turn(get("ann", "/cases/r1/report"), report("flagged"), 1)
    c.turn(get("bob", "/cases/r1/report"), NO_CASE, 1)
    c.case("an appeal the day after the last day, and on the last day", "day 131")
    c.turn(appeal("ann", "r1"), error(409, "too late, last day 130"), 1)
    c.line("day 130")
    c.turn(appeal("ann", "r1"), due(200, state("r1", "appealed")), 2)
    c.turn(appeal("ann", "r1"), error(409, "appealed already"), 1)
    c.turn(show("ann", "r1"), shown("r1", "appealed", 1, 100, "flagged", 130), 1)
    c.case("the lists with an open appeal")
    c.turn(get("ann", "/cases"), listed(state("r1", "appealed")), 1)
    c.turn(get("bob", "/cases"), listed(), 1)
    c.turn(get("rex", "/cases"), listed({"developer": "ann", **state("r1", "appealed")}), 1)
    c.case("another reviewer than the one who decided rules on it, once")
    c.turn(rule("rex", "ann", "r1"), error(403, "same reviewer"), 1)
    c.turn(rule("sue", "ann", "r1"), ruled("ann", "r1", "uphold"), 2)
    c.turn(rule("sue", "ann", "r1"), error(409, "ruled already"), 1)
    c.turn(show("ann", "r1"), shown("r1", "ruled", 1, 100, "flagged", 130, "uphold"), 1)
    c.turn(get("rex", "/cases"), listed(), 1)
    c.case("the case is reviewed under other lists, once")
    c.turn(review("rex", "ann", "r1"), error(409, "decided under these lists"), 1)
    c.line("day 140")
    c.line("edition 2")
    c.turn(review("rex", "ann", "r1"), decided("ann", "r1", "flagged"), 2)
    c.turn(review("rex", "ann", "r1"), error(409, "decided under these lists"), 1)
    c.turn(show("ann", "r1"), shown("r1", "decided", 2, 140, "flagged"), 1)
    c.case("no review while an appeal is open, and none of a queued case")
    c.turn(appeal("ann", "r1"), due(200, state("r1", "appealed")), 2)
    c.line("edition 3")
    c.turn(review("sue", "ann", "r1"), error(409, "appeal open"), 1)
    c.turn(submit("ann", "r2"), due(201, state("r2", "queued")), 3)
    c.turn(review("sue", "ann", "r2"), error(409, "not decided"), 1)
    c.turn(get("ann", "/cases"), listed(state("r1", "appealed"), state("r2", "queued")), 1)
    return c


def rules():
    c = Cases()
    c.case("each outcome, and an appeal against it", "keeper", "day 7", "edition 1")
    for outcome in REPORTS:
        c.turn(submit("ann", outcome, outcome), due(201, state(outcome, "queued")))
        c.turn(decide("sue"), decided("ann", outcome, outcome))
        c.turn(get("ann", f"/cases/{outcome}/report"), report(outcome))
        can = outcome in ("flagged", "undecided")
        told = due(200, state(outcome, "appealed")) if can else error(409, f"no appeal for {outcome}")
        c.turn(appeal("ann", outcome), told)
    c.turn(get("ann", "/cases"), listed(
        state("clear", "decided"), state("flagged", "appealed"), state("refused", "decided"), state("undecided", "appealed")))
    c.case("two developers use one reference, and the cases are decided in the order of submission", "keeper")
    c.turn(submit("bob", "r1", "undecided"), due(201, state("r1", "queued")))
    c.turn(submit("ann", "r1", "flagged"), due(201, state("r1", "queued")))
    c.turn(decide("rex"), decided("bob", "r1", "undecided"))
    c.turn(decide("sue"), decided("ann", "r1", "flagged"))
    c.turn(appeal("bob", "r1"), due(200, state("r1", "appealed")))
    c.turn(appeal("ann", "r1"), due(200, state("r1", "appealed")))
    c.turn(get("sue", "/cases"), listed(
        {"developer": "ann", **state("r1", "appealed")}, {"developer": "bob", **state("r1", "appealed")}))
    c.turn(rule("sue", "bob", "r1", "overturn"), ruled("bob", "r1", "overturn"))
    c.turn(show("bob", "r1"), shown("r1", "ruled", 1, 7, "undecided", 7, "overturn"))
    c.turn(show("ann", "r1"), shown("r1", "appealed", 1, 7, "flagged", 7))
    c.turn(rule("rex", "ann", "r9"), NO_CASE)
    c.turn(review("rex", "bob", "r9"), NO_CASE)
    c.turn(appeal("ann", "r9"), NO_CASE)
    c.turn(get("ann", "/cases/r9/report"), NO_CASE)
    c.case("an appeal that is ruled on is not open")
    c.turn(review("sue", "bob", "r1"), error(409, "decided under these lists"))
    c.line("edition 9")
    c.turn(review("sue", "bob", "r1"), decided("bob", "r1", "undecided"))
    c.turn(rule("rex", "bob", "r1"), error(409, "no appeal"))
    c.case("the last days that there are", "keeper", "edition 1", "day 4294967295")
    c.turn(submit("ann", "r1"), due(201, state("r1", "queued")))
    c.turn(decide("rex"), decided("ann", "r1", "flagged"))
    c.turn(appeal("ann", "r1"), due(200, state("r1", "appealed")))
    c.turn(show("ann", "r1"), shown("r1", "appealed", 1, 4294967295, "flagged", 4294967295))
    c.case("a keeper that fails at its first call", "keeper 1", "day 100")
    c.turn(submit("ann", "r1"), STORE_FAILED)
    c.turn(submit("ann", "r1"), due(201, state("r1", "queued")))
    c.turn(submit("ann", "r1"), due(200, state("r1", "queued")))
    c.case("a keeper that cannot add", "keeper 3")
    c.turn(submit("ann", "r1"), STORE_FAILED)
    c.turn(get("ann", "/cases"), listed())
    c.turn(submit("ann", "r1"), due(201, state("r1", "queued")))
    return c


def field(name):
    return error(422, f"field {name}")


def post(fields, body=b"", target="/cases", who="ann"):
    """A POST whose head has these fields behind the token."""
    return request(who, "POST", target, None, fields) + body


def sent(body, target="/cases", who="ann"):
    """A POST of a body."""
    return request(who, "POST", target, body)


def head_of(count):
    """A GET of the list whose head has so many bytes."""
    bare = request("ann", "GET", "/cases", None, ["a: "])
    return request("ann", "GET", "/cases", None, ["a: " + "b" * (count - len(bare))])


def fields_of(count):
    """A GET of the list with so many fields."""
    return request("ann", "GET", "/cases", None, ["a: b"] * (count - 1))


def kept(c):
    """What is told of a case at each of its stages, as it is submitted again, decided, ruled on and shown."""
    def again(word):
        c.turn(submit("ann", "r1"), due(200, state("r1", word)))

    c.case("a case that is kept is told with its state", "keeper", "day 20001", "edition 1")
    c.turn(submit("ann", "r1"), due(201, state("r1", "queued")))
    again("queued")
    c.turn(decide("rex"), decided("ann", "r1", "flagged"))
    again("decided")
    c.turn(appeal("ann", "r1"), due(200, state("r1", "appealed")))
    again("appealed")
    c.turn(rule("sue", "ann", "r1", "overturn"), ruled("ann", "r1", "overturn"))
    again("ruled")
    for outcome in REPORTS:
        c.case(f"a case that is decided: {outcome}", "keeper")
        c.turn(submit("ann", "r1", outcome), due(201, state("r1", "queued")))
        c.turn(decide("rex"), decided("ann", "r1", outcome))
        c.turn(get("ann", "/cases/r1/report"), report(outcome))


def last_decision(c):
    c.case("a case is shown by its last decision, whatever became of the first", "keeper", "day 19000", "edition 1")
    c.turn(submit("ann", "r1"), due(201, state("r1", "queued")))
    c.turn(decide("rex"), decided("ann", "r1", "flagged"))
    c.line("day 19001")
    c.turn(appeal("ann", "r1"), due(200, state("r1", "appealed")))
    c.turn(rule("sue", "ann", "r1"), ruled("ann", "r1", "uphold"))
    c.turn(show("ann", "r1"), shown("r1", "ruled", 1, 19000, "flagged", 19001, "uphold"))
    c.line("day 20001")
    c.line("edition 2")
    c.turn(review("rex", "ann", "r1"), decided("ann", "r1", "flagged"))
    c.turn(show("ann", "r1"), shown("r1", "decided", 2, 20001, "flagged"))
    c.line("day 20002")
    c.turn(appeal("ann", "r1"), due(200, state("r1", "appealed")))
    c.turn(show("ann", "r1"), shown("r1", "appealed", 2, 20001, "flagged", 20002))
    c.line("day 20003")
    c.turn(rule("sue", "ann", "r1", "overturn"), ruled("ann", "r1", "overturn"))
    c.turn(show("ann", "r1"), shown("r1", "ruled", 2, 20001, "flagged", 20002, "overturn"))


def lists(c):
    c.case("a reviewer sees whose appeals are open, and a developer the own cases", "keeper", "edition 1")
    c.turn(get("rex", "/cases"), listed())
    for who, reference in (("bob", "a-2"), ("ann", "r1")):
        c.turn(submit(who, reference), due(201, state(reference, "queued")))
        c.turn(decide("rex"), decided(who, reference, "flagged"))
        c.turn(appeal(who, reference), due(200, state(reference, "appealed")))
    c.turn(submit("ann", "a-2"), due(201, state("a-2", "queued")))
    c.turn(get("ann", "/cases"), listed(state("a-2", "queued"), state("r1", "appealed")))
    c.turn(get("bob", "/cases"), listed(state("a-2", "appealed")))
    c.turn(get("rex", "/cases"), listed(
        {"developer": "ann", **state("r1", "appealed")}, {"developer": "bob", **state("a-2", "appealed")}))


def limit(c):
    def submitted(who, number):
        return request(who, "POST", "/cases", app(f"r{number}", "", dex=[""], manifest=""))

    too_many = error(409, "too many open cases, limit 1000")
    c.case("1,000 open cases", "keeper")
    c.door(1000, [submitted("ann", number) for number in range(1, 1001)], [("1000", [])])
    c.case("one more is refused until one is decided")
    c.turn(submitted("ann", 1001), too_many)
    c.turn(submitted("ann", 1000), due(200, state("r1000", "queued")))
    c.turn(submitted("bob", 1001), due(201, state("r1001", "queued")))
    c.turn(decide("rex"), decided("ann", "r1", "flagged"))
    c.turn(submitted("ann", 1001), due(201, state("r1001", "queued")))
    c.turn(submitted("ann", 1002), too_many)


def answers():
    c = Cases()
    for part in (kept, last_decision, lists, limit):
        part(c)
    return c


def heads(c):
    c.unchanged(
        "the longest head, and one that is longer",
        (head_of(16384), ONE_CASE), (head_of(16385), BIG_HEAD), (head_of(20000), BIG_HEAD),
    )
    c.unchanged(
        "16,384 bytes without the end of a head, and one byte less",
        (head_of(20000)[:16384], BIG_HEAD), (head_of(20000)[:16383], ENDED), (b"a" * 16384, BIG_HEAD),
    )
    c.unchanged("64 fields, and 65", (fields_of(64), ONE_CASE), (fields_of(65), BIG_HEAD))
    head = b" /cases HTTP/1.1\r\nx-desk-token: ann-token\r\ncontent-length: 0\r\n\r\n"
    c.unchanged("no method", *((method + head, BAD) for method in (b"PUT", b"HEAD", b"get", b"DELETE", b"")))
    c.unchanged(
        "no head",
        (b"GET /cases/\xff HTTP/1.1\r\nx-desk-token: ann-token\r\n\r\n", BAD),
        (b"GET /cases HTTP/2.0\r\nx-desk-token: ann-token\r\n\r\n", BAD),
        (b"GET /cases\r\n\r\n", BAD), (b"\r\n\r\n", BAD), (b"\x00\xff\r\n\r\n", BAD), (b"?\n\n", BAD),
        (b"GET /cases HTTP/1.1\r\nno field\r\n\r\n", BAD), (b"GET /cases HTTP/1.1\r\n: b\r\n\r\n", BAD),
        (b"GET /cases HTTP/1.1\r\na: b\r\n c\r\n\r\n", BAD),
        (b"GET /cases HTTP/1.1\r\na: \x00\r\n\r\n", BAD),
    )
    c.unchanged(
        "lines that end with LF, an empty line before the head, and the version before",
        (b"GET /cases HTTP/1.1\nx-desk-token: ann-token\n\n", ONE_CASE),
        (b"\r\n" + get("ann", "/cases"), ONE_CASE), (b"\r\n\r\n" + get("ann", "/cases"), BAD),
        (b"GET /cases HTTP/1.0\r\nx-desk-token: ann-token\r\n\r\n", ONE_CASE),
    )


def lengths(c):
    c.unchanged(
        "a length that is none, and two",
        *((post([f"Content-Length: {length}"], b"12345"), BAD)
          for length in ("+5", "-5", "5 ,5", "0x5", "five", "", "00000000005", "5.0")),
        (post(["Content-Length: 5", "Content-Length: 5"], b"12345"), BAD),
        (post(["Content-Length: 5", "CONTENT-LENGTH: 6"], b"12345"), BAD),
        (request("ann", "GET", "/cases", None, ["content-length: x"]), BAD),
    )
    c.unchanged(
        "no length",
        (post([]), NO_LENGTH), (post(["transfer-encoding: chunked"], b"0\r\n\r\n"), NO_LENGTH),
        (post(["content-length: 5", "Transfer-Encoding: chunked"], b"12345"), NO_LENGTH),
        (request("ann", "GET", "/cases", None, ["transfer-encoding: chunked"]), NO_LENGTH),
    )
    c.unchanged(
        "a body that is too long, and one that may be and does not come",
        (post(["content-length: 67108865"]), TOO_LONG), (post(["content-length: 9999999999"]), TOO_LONG),
        (request("ann", "GET", "/cases", None, ["content-length: 67108865"]), TOO_LONG),
        (post(["content-length: 67108864"]), ENDED),
    )
    c.unchanged(
        "of two faults the first in their order",
        (post(["content-length: x", "transfer-encoding: chunked"]), BAD),
        (post(["content-length: 67108865", "transfer-encoding: chunked"]), NO_LENGTH),
        (post(["a: b"] * 64 + ["content-length: x"]), BIG_HEAD),
        (post(["content-length: x"], target="/nowhere"), BAD),
    )
    c.unchanged(
        "a body that is a byte short, one with more behind it, and a length of ten digits",
        (submit("ann", "r2")[:-1], ENDED),
        (submit("ann", "r1") + submit("ann", "r2"), due(200, state("r1", "queued"))),
        (post(["content-length: 0000000002"], b"{}"), field("reference")),
        (request("ann", "GET", "/cases", b"[["), ONE_CASE),
    )


def targets(c):
    missing = (
        "/nowhere", "/", "/cases/", "/cases?a=b", "/Cases", "/cases/r1/", "/cases/r1/reports", "/cases/r1/report/a",
        "/cases//report", "//cases", "http://a/cases", "*", "/decisions/", "/reviews/r1",
    )
    c.unchanged("no route", *((get("ann", target), NO_ROUTE) for target in missing))
    other = [("GET", t) for t in ("/decisions", "/reviews", "/rulings", "/cases/r1/appeal")]
    other += [("POST", t) for t in ("/cases/r1", "/cases/r1/report")]
    no_method = error(405, "no such method")
    c.unchanged("no such method", *((request("ann", m, t, b""), no_method) for m, t in other))
    c.unchanged(
        "the route is told before the token",
        (get(None, "/nowhere"), NO_ROUTE), (get(None, "/decisions"), no_method), (get(None, "/cases/r1"), NO_TOKEN),
    )
    c.unchanged(
        "a reference that names no case, and none that is decoded",
        *((get("ann", f"/cases/{reference}"), NO_CASE)
          for reference in ("a" * 65, "a" * 64, "%2e%2e", "..", "r%31", "r1?", "r1?a=b", "R1", "r1~")),
        (get("ann", "/cases/" + "a" * 65 + "/report"), NO_CASE),
        (sent(compact({"text": "why"}), "/cases/%72%31/appeal"), NO_CASE),
    )


def tokens(c):
    def with_fields(*fields):
        return request(None, "GET", "/cases", None, fields)

    wrong = ("eve-token", "ANN-TOKEN", "ann-toke", "ann-token2", "ann", "", "\"ann-token\"")
    c.unchanged(
        "no such token", (with_fields(), NO_TOKEN), *((with_fields(f"x-desk-token: {t}"), NO_TOKEN) for t in wrong),
        (with_fields("desk-token: ann-token"), NO_TOKEN),
    )
    c.unchanged(
        "the first token, whatever the case of its name, and without the blanks around it",
        (with_fields("X-DESK-Token: ann-token"), ONE_CASE), (with_fields("x-desk-token:  \tann-token \t "), ONE_CASE),
        (with_fields("x-desk-token:ann-token", "x-desk-token: eve-token"), ONE_CASE),
        (with_fields("x-desk-token: eve-token", "x-desk-token: ann-token"), NO_TOKEN),
    )
    c.unchanged(
        "wrong role, whatever the body",
        (sent(b"", who="rex"), WRONG_ROLE), (show("rex", "r1"), WRONG_ROLE), (get("sue", "/cases/r1/report"), WRONG_ROLE),
        (sent(b"[", "/cases/r1/appeal", "sue"), WRONG_ROLE), (decide("ann"), WRONG_ROLE),
        (sent(b"", "/reviews", "bob"), WRONG_ROLE), (rule("ann", "ann", "r1"), WRONG_ROLE),
    )


def bodies(c):
    c.unchanged(
        "not json",
        *((sent(body), NOT_JSON) for body in (
            b"", b" ", b"{", b"{}}", b"{} x", b"{'reference':'r2'}", b"nul", b"01", b"[1,]", b"\"\xff\"", b"\xef\xbb\xbf{}",
            b"{\"reference\":\"r\n2\"}", b"\"\xed\xa0\x80\"", b"[" * 200, b"[" * 200 + b"]" * 200, b"[" * 128 + b"]" * 128,
        )),
        (sent(b"", "/cases/r1/appeal"), NOT_JSON), (sent(b"x", "/reviews", "rex"), NOT_JSON),
        (sent(b"", "/rulings", "sue"), NOT_JSON),
    )
    c.unchanged(
        "no object has no field",
        *((sent(body), field("reference")) for body in (
            b"{}", b"[]", b"1", b"null", b"true", b"\"reference\"", b"[" * 127 + b"]" * 127, b"[{\"reference\":\"r2\"}]",
        )),
    )
    others = (1, 1.5, True, None, [], {})
    names = ("reference", "manifest", "layouts", "declaration")
    c.unchanged("no text", *((sent(altered(n, v)), field(n)) for n in names for v in others))
    whole = json.loads(app("r2"))
    c.unchanged(
        "a field is missing, and of several the first in their order",
        *((sent(compact({k: v for k, v in whole.items() if k != n})), field(n)) for n in (*names, "dex")),
        (sent(compact({k: v for k, v in whole.items() if k not in ("dex", "manifest")})), field("manifest")),
        (sent(app("r 2", manifest=1, dex=[])), field("reference")), (sent(app("r2", 1, dex=[])), field("declaration")),
    )
    c.unchanged(
        "no reference", *((sent(app(r)), field("reference")) for r in ("", "a" * 65, "a/b", "a b", "r\u00e9", "r2\n", "r2\x00")),
    )
    wrong = (
        [], ["AA=="] * 17, "AA==", [1], ["AA==", None], {}, None, ["AA=!"], ["A"], ["AA"], ["AAA"], ["AB=="], ["AAB="],
        ["AA==\n"], [" AA=="], ["A-_="], ["===="], ["AA==", "AAAA="],
    )
    c.unchanged("no dex", *((sent(altered("dex", dex)), field("dex")) for dex in wrong))


def small_bodies(c):
    appeals = ({}, {"text": ""}, {"text": "a" * 4001}, {"text": "a" * 3999 + "\u00e9"}, {"text": 1}, {"text": None}, {"Text": "why"})
    c.unchanged(
        "no appeal's text, and the longest of a case that is not decided",
        *((sent(compact(body), "/cases/r1/appeal"), field("text")) for body in appeals),
        (sent(compact({"text": "a" * 4000}), "/cases/r1/appeal"), error(409, "not decided")),
        (sent(compact({"text": "a" * 3998 + "\u00e9"}), "/cases/r1/appeal"), error(409, "not decided")),
    )
    ruling = {"developer": "ann", "reference": "r1", "ruling": "uphold"}
    c.unchanged(
        "no ruling",
        *((sent(compact({**ruling, name: value}), "/rulings", "sue"), field(name)) for name, value in (
            ("developer", 1), ("developer", "a" * 65), ("reference", None), ("reference", ""), ("ruling", "maybe"),
            ("ruling", "Uphold"), ("ruling", ""), ("ruling", True),
        )),
        (sent(b"{}", "/rulings", "sue"), field("developer")),
        (sent(b"{\"developer\":\"ann\"}", "/rulings", "sue"), field("reference")),
        (sent(b"{\"ruling\":\"a\",\"developer\":\"ann\",\"reference\":\"\"}", "/rulings", "sue"), field("reference")),
        (sent(compact(ruling), "/rulings", "sue"), error(409, "no appeal")),
        (rule("sue", "nobody", "r1"), NO_CASE),
    )
    c.unchanged(
        "no review",
        (sent(b"{}", "/reviews", "rex"), field("developer")),
        (sent(b"{\"developer\":\"ann\",\"reference\":7}", "/reviews", "rex"), field("reference")),
        (sent(b"{\"developer\":[\"ann\"],\"reference\":\"r1\"}", "/reviews", "rex"), field("developer")),
        (review("rex", "ann", "r1"), error(409, "not decided")), (review("rex", "bob", "r1"), NO_CASE),
    )


def taken(c):
    """Bodies that are taken."""
    c.case("of a key that stands twice the last value counts", "keeper")
    twice = app("r1")[:-1]
    c.turn(sent(twice + b",\"reference\":\"a b\"}"), field("reference"))
    c.turn(sent(twice + b",\"dex\":[]}"), field("dex"))
    c.turn(sent(twice + b",\"reference\":\"r2\"}"), due(201, state("r2", "queued")))
    c.turn(sent(b"{\"manifest\":1," + app("r3")[1:]), due(201, state("r3", "queued")))
    c.case("other fields, blanks and escapes in a body")
    c.turn(sent(app("r4", reviewer="rex", state="ruled")), due(201, state("r4", "queued")))
    c.turn(sent(b" \r\n\t" + app("r4").replace(b":", b" : ") + b"\n"), due(200, state("r4", "queued")))
    c.turn(sent(app("r4").replace(b"\"r4\"", b"\"\\u0072\\u0034\"")), due(200, state("r4", "queued")))
    c.case("16 files, a file of no bytes, and texts of no bytes")
    c.turn(sent(app("r5", dex=["AA=="] * 16)), due(201, state("r5", "queued")))
    c.turn(sent(app("r6", "", dex=[""], manifest="")), due(201, state("r6", "queued")))
    c.turn(sent(app("r6", "", dex=["AA=="], manifest="")), error(409, "other content under this reference"))
    c.case("the body of a decision is not looked at")
    c.turn(sent(b"[[[", "/decisions", "rex"), decided("ann", "r2", "flagged"))
    c.turn(sent(b"\xff", "/decisions", "sue"), decided("ann", "r3", "flagged"))
    c.case("a reference of 64 bytes, and of each sort")
    for reference in ("a" * 64, "Az_0.-", ".."):
        c.turn(submit("bob", reference), due(201, state(reference, "queued")))
        c.turn(show("bob", reference), shown(reference, "queued", 0))


def requests():
    c = Cases()
    c.case("a case to begin with", "keeper", "day 100", "edition 1")
    c.turn(submit("ann", "r1"), due(201, state("r1", "queued")))
    for part in (heads, lengths, targets, tokens, bodies, small_bodies, taken):
        part(c)
    return c


def ends(c):
    post_, get_ = submit("ann", "r1"), get("ann", "/cases")
    added, none = due(201, state("r1", "queued")), listed()
    c.case("a connection that ends before a whole request", "keeper", "day 100", "edition 1")
    c.turn(b"GET /ca", ENDED)
    c.turn(b"", ENDED)
    c.turn(b"?", ENDED)
    c.each("front", post_, ENDED, len(post_))
    c.turn(get_, none)
    c.each("front", get_, ENDED, len(get_))
    c.turn(get_, none)
    c.case("the same where each byte comes alone", f"pieces {len(post_)}*1")
    c.each("front", post_, ENDED, len(post_))
    c.turn(get_, none)
    c.turn(post_, added)
    c.turn(get_, ONE_CASE)
    c.case("pieces of other sizes, where 0 counts as 1")
    for sizes in ("0 0 0", "7 100*0 3", "1", "60 1 1", "50*5"):
        c.line(f"pieces {sizes}")
        c.turn(post_, due(200, state("r1", "queued")))
    c.case("each byte of a fault comes alone", "pieces 20000*1")
    c.turn(head_of(20000), BIG_HEAD)
    c.turn(post(["content-length: 67108865"]), TOO_LONG)
    c.turn(b"PUT" + get_[3:], BAD)


def faults(c):
    post_, get_ = submit("ann", "r1"), get("ann", "/cases")
    c.case("a link that fails before the request is there", "keeper", "failing 1")
    c.turn(post_, b"read fault")
    c.case("nothing was done")
    c.turn(get_, listed())
    c.case("a link that fails at its fifth read", "pieces 9*1", "failing 5")
    c.turn(post_, b"read fault")
    c.case("nothing was done then")
    c.turn(get_, listed())
    c.case("a link that takes nothing of the reply, and the submission is kept", "room 0")
    c.turn(post_, b"write fault")
    c.case("it is told so the next time")
    c.turn(get_, ONE_CASE)
    c.case("a link that takes a front of the reply, and the decision is kept", "room 20")
    c.turn(decide("rex"), b"write fault " + decided("ann", "r1", "flagged")[:20])
    c.case("it is told so by the next decision")
    c.turn(decide("rex"), error(409, "nothing queued"))
    c.case("a link that takes each number of bytes")
    for bytes_, reply_ in (
        (get("ann", "/cases/r1/report"), report("flagged")), (show("ann", "r1"), shown("r1", "decided", 1, 100, "flagged")),
        (get_, listed(state("r1", "decided"))), (get("ann", "/nowhere"), NO_ROUTE), (b"PUT" + get_[3:], BAD),
    ):
        c.each("room", bytes_, reply_, len(reply_))
    c.case("a link that fails at each of its calls")
    c.each("call", get_, listed(state("r1", "decided")), 1)
    c.each("call", get("bob", "/cases/r1"), NO_CASE, 1)
    c.each("call", submit("ann", "r1"), due(200, state("r1", "decided")), 1)
    c.case("the same where each byte comes alone", f"pieces {len(post_)}*1")
    c.each("call", get_, listed(state("r1", "decided")), 1)
    c.each("call", submit("ann", "r1"), due(200, state("r1", "decided")), 1)
    c.case("the case is as before")
    c.turn(show("ann", "r1"), shown("r1", "decided", 1, 100, "flagged"))


def doors(c):
    get_, none, added = get("ann", "/cases"), listed(), due(201, state("r1", "queued"))
    nothing = b"nothing"
    c.case("a connection that ends, and the next one", "keeper")
    c.door(9, [b"GET /ca", get_], [("2", [nothing, none])])
    c.case("no connection, and none that is taken")
    c.door(9, [], [("0", [nothing])])
    c.door(0, [get_], [("0", [nothing]), ("0", [])])
    c.case("one after the other, so many at a time")
    c.door(2, [get_, b"", get("bob", "/cases/r1"), get("rex", "/cases"), get_],
           [("2", [none, nothing]), ("2", [NO_CASE, none]), ("1", [none]), ("0", [])])
    c.case("a door that fails as it opens the first connection", "failing 1")
    c.door(9, [get_, get_], [("door fault", []), ("2", [none, none])])
    c.case("a door that fails behind a connection that ended at once", "failing 3")
    c.door(9, [b"", get_], [("door fault", [nothing]), ("1", [none])])
    c.case("a connection that fails at its first read", "failing 2")
    c.door(9, [submit("ann", "r1"), get_], [("2", [nothing, none])])
    c.case("connections that take 30 bytes", "room 30")
    c.door(9, [get_, get("ann", "/nowhere")], [("2", [none[:30], NO_ROUTE[:30]])])
    c.case("a keeper that fails on the second connection", "keeper 2")
    c.door(9, [get_, submit("ann", "r1"), submit("ann", "r1"), decide("rex"), show("ann", "r1")], [
        ("5", [none, STORE_FAILED, added, decided("ann", "r1", "flagged"), shown("r1", "decided", 1, 100, "flagged")])])


def both_ways(c):
    """Requests as they are, and then where each byte comes alone."""
    turns = (
        (REQUEST + app("r1") + b"and more..", due(200, state("r1", "queued"))),
        (b"GET / HTTP/1.0\n\n", NO_ROUTE), (b"GET /cases HTTP/1.0\n\n", NO_TOKEN),
        (b"GET /cases HTTP/1.0\nx-desk-token: ann-token\n\n", ONE_CASE),
        (b"GET / HTTP/1.1\r\n", ENDED), (b"POST / HTTP/1.1\r\ncontent-length: 5\r\n\r\nfour", ENDED),
        (b"PUT / HTTP/1.1\r\n\r\n", BAD), (b"GET / HTTP/1.1\r\ncontent-length: +5\r\n\r\n12345", BAD),
        (b"GET / HTTP/1.1\r\ncontent-length: 1\r\nContent-Length: 1\r\n\r\n1", BAD),
        (b"POST / HTTP/1.1\r\ntransfer-encoding: chunked\r\ncontent-length: 99999999\r\n\r\n", NO_LENGTH),
        (b"POST / HTTP/1.1\r\ncontent-length: 67108865\r\n\r\n", TOO_LONG),
    )
    c.case("requests as they are", "keeper", "day 100", "edition 1")
    c.turn(REQUEST + app("r1") + b"and more..", due(201, state("r1", "queued")))
    for bytes_, reply_ in turns:
        c.turn(bytes_, reply_)
    c.case("the same where each byte comes alone", "pieces 999*1")
    for bytes_, reply_ in turns:
        c.turn(bytes_, reply_)


def calls(c):
    """Which call of a link is which: so many reads, and then a write of the head and one of the body."""
    whole, long = REQUEST + app("r1") + b"and more..", head_of(5000)
    c.case("the first read fails", "keeper", "failing 1")
    c.turn(whole, b"read fault")
    c.case("the read of the third byte of a body fails", "pieces 999*1", f"failing {len(REQUEST) + 3}")
    c.turn(whole, b"read fault")
    c.case("nothing was done by these")
    c.turn(get("ann", "/cases"), listed())
    c.turn(whole, due(201, state("r1", "queued")))
    c.turn(decide("rex"), decided("ann", "r1", "flagged"))
    c.case("the write of the head fails", "failing 2")
    c.turn(get("ann", "/cases/r1/report"), b"write fault")
    c.turn(get("ann", "/cases/r9"), b"write fault")
    c.case("the write of the body fails", "failing 3")
    c.turn(get("ann", "/cases/r1/report"), b"write fault " + report("flagged")[:-len(REPORTS["flagged"])])
    c.turn(get("ann", "/cases/r9"), b"write fault " + NO_CASE[:-len(b"{\"error\":\"no such case\"}")])
    c.case("no further call is made", "failing 4")
    c.turn(get("ann", "/cases/r1/report"), report("flagged"))
    c.turn(get("ann", "/cases/r9"), NO_CASE)
    c.case("a connection that ends is read once more", "failing 2")
    c.turn(b"GET /ca", b"read fault")
    one_case = listed(state("r1", "decided"))
    for title, pieces, bytes_, reads in (
        ("a request whose first byte comes alone is read in two", "1", get("ann", "/cases"), 2),
        ("a head of 5,000 bytes is read in two, of which the first gives 4,096", "", long, 2),
        ("where its first byte comes alone it is read in three", "1", long, 3),
    ):
        for call, reply_ in ((reads, b"read fault"), (reads + 1, b"write fault"), (reads + 3, one_case)):
            c.case(title, *([f"pieces {pieces}"] if pieces else []), f"failing {call}")
            c.turn(bytes_, reply_)
    c.case("it stays one day at a door", "keeper", "day 20000")
    c.door(9, [submit("ann", "r1"), decide("rex"), appeal("ann", "r1"), show("ann", "r1")], [("4", [
        due(201, state("r1", "queued")), decided("ann", "r1", "flagged"), due(200, state("r1", "appealed")),
        shown("r1", "appealed", 1, 20000, "flagged", 20000)])])


def bytewise(c):
    """The worked case once more, where each byte of a request comes alone: none of them has 999."""
    case = day()
    for line in case.lines[1:]:
        c.line(line)
        if line.startswith("## "):
            c.line("pieces 999*1")
    c.count += case.count


def links():
    c = Cases()
    ends(c)
    faults(c)
    doors(c)
    both_ways(c)
    calls(c)
    bytewise(c)
    return c


def main():
    folder = pathlib.Path(sys.argv[1])
    (folder / "data").mkdir(exist_ok=True)
    files = {"day": day(), "rules": rules(), "answers": answers(), "requests": requests(), "links": links()}
    lines = []
    for name, cases in files.items():
        cases.write(folder / "data" / f"{name}.txt")
        lines.append(f"{name}.txt: {cases.count} replies that are due")
        if name == "day":
            turns = cases.calls * (cases.count + 1)
            lines.append(f"{name}.txt: {turns} replies that are due where one of {cases.calls} calls fails")
    stdout = folder / "stdout"
    before, after = stdout.read_text().split(HEAD)
    behind = after[after.index(NEXT):]
    stdout.write_text(before + HEAD + "\n".join(lines) + "\n" + behind)


main()
