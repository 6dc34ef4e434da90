"""Makes the table of cases that each client is tested with, from the worked bytes of docs/use/BYTES.md.

    tools/python tools.clients.cases --write    writes clients/cases.json
    tools/python tools.clients.cases            compares it with the page; status 1 if it differs

`bytes` has calls with the frame that a client has to send and the frame that it gets. `store` has
calls that are made one after another at a store that runs, with what each returns.

A call is a line: `update NODE NUMBER COMMAND`, `read NODE MODE CHAIN KEY` or `status`, where COMMAND
is `put CHAIN KEY VALUE`, `tas CHAIN KEY VERSION VALUE`, `append`, `prepend`, `inc CHAIN KEY BY`, `dec`,
or `mini CHAIN ITEM ..` with items `c:KEY:VERSION`, `r:KEY` and `w:KEY:VALUE`. Calls in one frame stand
between `;`. A value is its characters, 0x and hexadecimal digits, or N*C, which is N times the character C.
In `store` {} is a word that each client has for itself.
"""
import json
import re
import sys

from tools import repository

FILE = repository.path("clients", "cases.json")
PAGE = repository.path("docs", "use", "BYTES.md")

PUT = "put `a` on object 0/k at node 1, pass 0, client 1, number 1"
WRITTEN = "its reply: Written 1, pass 9"
READ = "strong read of 0/k at node 3, pass 9"
VALUE = "its reply: version 1, `a`, pass 9"
MANY = "the put and a strong read of 0/k at node 3, pass 0, as Many"
BOTH = "their reply: Written 1, pass 9; version 1, `a`, pass 9"
CALL_PUT, CALL_READ = "update 1 1 put 0 k a", "read 3 strong 0 k"
STATUS = '{"chains":[{"epoch":1,"members":[1,2,3],"name":"a"}]}'

# The calls of the page's commands, by what the page calls them, and the page's reply to each.
COMMANDS = {
    "Put `a` on 0/k": ("put 0 k a", "Written 1"),
    "TestAndSet of 0/k, expected version 2, `b`": ("tas 0 k 2 b", "Mismatch 0"),
    "Append `cd` to 1/list": ("append 1 list cd", "Written 1"),
    "Prepend nothing to 1/list": ("prepend 1 list 0x", "Written 1"),
    "Increment 0/n by 7": ("inc 0 n 7", "Written 1"),
    "Decrement 0/n by 258": ("dec 0 n 258", "Written 1"),
    "Mini: compare 0/a with version 1, read 0/a and 0/z, write `2` to 0/a":
        ("mini 0 c:a:1 r:a r:z w:a:2", "Done, which read version 1, `1`, and version 0"),
    "Mini: read 0/a": ("mini 0 r:a", "CompareFailed 1"),
}
# The names of the page's update replies, and the text of each in the table.
REPLIES = {
    "Written 1": "written 1", "Mismatch 0": "mismatch 0", "TooLong": "toolong", "NotANumber": "notanumber",
           "Overflow": "overflow",
    "Underflow": "underflow", "Done, which read version 1, `1`, and version 0": "done 1:0x31 0:0x",
           "Done, which read nothing": "done",
    "CompareFailed 1": "comparefailed 1", "Stale 4": "stale 4",
}
MODES = {"strong": "strong", "eventual": "eventual", "bounded by 9": "bounded:9"}
# Frames that are no reply to a put, by what is wrong with them. 'closed' stands for the end of the
# connection.
NO_REPLIES = {
    "an empty payload": "00000000", "a cut reply": "00000012 0101 0000000000000009 01 00000000000000",
              "a byte too many":
    "00000014 0101 0000000000000009 01 0000000000000001 00",
              "an unknown version": "00000013 0301 0000000000000009 01 0000000000000001",
    "an unknown kind": "00000002 0109",
              "an unknown tag": "00000013 0101 0000000000000009 0a 0000000000000001",
    "a reply to a read": "00000015 0102 0000000000000009 0000000000000001 000161",
              "a length above the limit": "00100001",
    "two replies": "00000016 0205 02 03 0f 0000000000000000 03 0f 0000000000000000",
              "too many reads": "0000000c 0101 0000000000000009 07 11",
}

# Calls of a fresh client at a fresh store, and their results: chain 0 has the nodes 1, 2 and 3, chain 1
# the nodes 4 and 5.
STORE = [
    ("read 2 strong 0 {}", "read 0 0x"),
    ("update 1 1 put 0 {} 0x6100ff", "written 1"),
    ("update 1 1 put 0 {} z", "written 1"),
    ("read 1 eventual 0 {}", "read 1 0x6100ff"),
    ("read 1 bounded:9 0 {}", "read 1 0x6100ff"),
    ("update 1 2 tas 0 {} 0 b", "mismatch 1"),
    ("update 1 3 tas 0 {} 1 b", "written 2"),
    ("update 1 4 append 0 {} c", "written 3"),
    ("update 1 5 prepend 0 {} a", "written 4"),
    ("read 3 strong 0 {}", "read 4 0x616263"),
    ("update 1 6 inc 0 {} 1", "notanumber"),
    ("update 1 7 inc 0 {}.n 258", "written 1"),
    ("update 1 8 dec 0 {}.n 259", "underflow"),
    ("update 1 9 inc 0 {}.n 18446744073709551615", "overflow"),
    ("update 1 10 dec 0 {}.n 2", "written 2"),
    ("update 1 11 mini 0 c:{}:4 r:{} r:{}.n r:{}.z w:{}:d w:{}.m:0x",
     "done 4:0x616263 2:0x0000000000000100 0:0x"),
    ("update 1 12 mini 0 c:{}.m:1 c:{}:4 w:{}:e", "comparefailed 1"),
    ("update 1 13 append 0 {} 4096*v", "toolong"),
    ("update 1 1 put 0 {} z", "stale 13"),
    ("update 3 14 put 0 {} z", "refused 9 1"),
    ("update 1 14 mini 0 w:{}:e", "done"),
    ("read 99 strong 0 {}", "refused 23 0"),
    ("read 1 strong 9 {}", "refused 7 0"),
    ("update 1 15 put 0 {} f ; read 1 strong 0 {} ; read 99 strong 0 {}",
     "written 7 ; read 7 0x66 ; refused 23 0"),
    ("update 4 1 put 1 {} 0x", "written 1"),
    ("read 5 strong 1 {}", "read 1 0x"),
    ("status",
     'status {"chains":[{"epoch":1,"members":[1,2,3],"name":"a"},{"epoch":1,"members":[4,5],"name":"b"}]}'),
]


def cells(line):
    return [it.strip() for it in line.strip().strip("|").split("|")]


def bytes_of(cell):
    """Returns the bytes of a cell of the page, given as hexadecimal digits."""
    return re.fullmatch(r"`([0-9a-f ]+)`", cell)[1].replace(" ", "")


def worked(text):
    """Returns the worked bytes of the page by name; a reply without a name follows its request."""
    part = text.partition("\n## Worked bytes")[2].partition("\n## What nodes send")[0]
    found, last = {}, ""
    for what, told in (cells(it) for it in part.splitlines() if it.startswith("|")
                       and not it.startswith("|---")):
        if told == "Bytes":
            continue
        if what == "TooLong, NotANumber, Overflow, Underflow":
            found |= dict(zip(what.split(", "), re.findall("[0-9a-f]{2}", told)))
            continue
        if what == "its reply":
            what = f"its reply: {last}"
        found[what], last = bytes_of(told), what
    modes = re.search(r"Modes: (.*)\.", part)[1]
    return found | {what: digits.replace(" ", "") for what,
                    digits in re.findall(r"([a-z][a-z 0-9]*) `([0-9a-f ]+)`", modes)}


def refusals(text):
    """Returns the numbers of the refusals that a server sends, by the page's table."""
    part = text.partition("\n### Refusals")[2].partition("\n## ")[0]
    return [int(it[0]) for it in map(cells, part.splitlines()) if it[0].isdigit()]


def framed(payload):
    return f"{len(payload) // 2:08x}{payload}"


def case(name, call, request, reply, result):
    """Returns a case of client 1, whose pass is the one in the request; where a reply has one it is
    9."""
    shown = 9 if call == CALL_READ or call.startswith("read") else 0
    after = 9 if result.split()[0] not in ("refused", "status", "badreply", "lost") else shown
    return {"name": name, "pass": shown, "call": call, "request": request, "reply": reply, "result": result,
            "pass_after": after}


def made_of(text):
    """Returns the cases of a page with this text."""
    page = worked(text)
    put, read = page[PUT], page[READ]
    # The bytes before the command in the put, and those before and after the mode in the read.
    before, reply = put[8:-len(page["Put `a` on 0/k"])], page[WRITTEN][8:-len(page["Written 1"])]
    front, mode, back = read[8:].partition(page["strong"] + page["Put `a` on 0/k"][2:-6])
    found = [
        case("put", CALL_PUT, put, page[WRITTEN], "written 1"),
        case("read", CALL_READ, read, page[VALUE], "read 1 0x61"),
        case("status", "status", page["status"], page["its reply: status"], f"status {STATUS}"),
        case("several in one frame", f"{CALL_PUT} ; {CALL_READ}", page[MANY], page[BOTH],
             "written 1 ; read 1 0x61"),
        case("several that are refused", f"{CALL_PUT} ; {CALL_READ}", page[MANY], page["Refused 16"],
             "refused 16 0 ; refused 16 0"),
        case("a put at another node than the head", CALL_PUT, put, page["Refused 9, head 1"], "refused 9 1"),
    ]
    for what, (command, told) in COMMANDS.items():
        found.append(case(what, f"update 1 1 {command}", framed(before + page[what]),
                          framed(reply + page[told]), REPLIES[told]))
    for what, name in MODES.items():
        request = framed(front + page[what] + mode[2:] + back)
        found.append(case(f"a read, {what}", f"read 3 {name} 0 k", request, page[VALUE], "read 1 0x61"))
    for what, told in REPLIES.items():
        found.append(case(f"the reply {what}", CALL_PUT, put, framed(reply + page[what]), told))
    for at in refusals(text):
        found.append(case(f"refusal {at}", CALL_READ, read, framed(f"0103{at:02x}{0:016x}"),
                          f"refused {at} 0"))
    found += [case(what, CALL_PUT, put, told.replace(" ", ""), "badreply") for what,
              told in NO_REPLIES.items()]
    found.append(case("a connection that ends", CALL_PUT, put, "", "lost"))
    return found


def text_of_cases():
    """Returns the text of clients/cases.json: a case a line."""
    with open(PAGE, encoding="utf-8") as it:
        cases = made_of(it.read())
    lines = [",\n".join("  " + json.dumps(it) for it in table)
             for table in (cases, [list(it) for it in STORE])]
    return f'{{"bytes": [\n{lines[0]}\n],\n"store": [\n{lines[1]}\n]}}\n'


def is_current():
    """Returns whether clients/cases.json is what the page says."""
    with open(FILE, encoding="utf-8") as it:
        return it.read() == text_of_cases()


def main():
    if sys.argv[1:] == ["--write"]:
        with open(FILE, "w", encoding="utf-8") as it:
            it.write(text_of_cases())
        return 0
    if sys.argv[1:]:
        print(__doc__, file=sys.stderr)
        return 2
    if is_current():
        return 0
    print("cases: clients/cases.json is not what docs/use/BYTES.md says: tools.clients.cases --write",
          file=sys.stderr)
    return 1


if __name__ == "__main__":
    sys.exit(main())
