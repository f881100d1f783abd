#!/usr/bin/env python3
"""Counts the places in crates/*/src/*.rt that read like the older language, in seven points.

usage: python3 tools/places.py [--list N]    at the top of the repository

It prints for each point, and each pattern of it, how many places there are in all and by crate; with --list N the places of point N as
`file:line: pattern text`. A place is a pattern at a line, so that what two patterns find counts under both. Comments are not searched.
1  1a own enums with a variant Refused, Unreadable, Unopened, End, Yes, No or Done   1b structs with a flag or an error's number beside a
   value   1c numbers for refusals   1d numbers for kinds and for open or closed   1e functions that answer a sentinel (BY HAND)
   1f functions that answer an i64, a refusal below 0
2  functions, types and constants that differ in a type, size, constant or name alone (BY HAND: parted by ; are the groups of TWINS)
3  3a while and loop whose block steps something by one   3b those that go on by a part, a cursor, a flag or a countdown elsewhere
4  4a equality, order, copies, conversions, digits as functions (BY HAND)   4b calls of some of them, and of wrapping sums
   4c lines with `field: field`   4d lines with `field: other.field`   4e match arms that hand a refusal on
5  5a to 5n parameters that travel together, as GROUPS says: a place is a function and a group   5r facts that stand in the `requires` of
   three functions or more   5s such facts of `ensures`. A named fact, as Room, counts whatever it is said of
6  6a functions with an array and a length or count of what is held in it   6b structs of such, or of parallel arrays   6c calls that take
   the front of an array by a length   6d functions that use two arrays at one index   6e lists searched and arrays shifted by hand, and
   places of words in an array (BY HAND)
7  7a matches on a number   7b a text compared with one word after another   7c functions that a flag tells what runs next
   7d functions that choose a call by case (BY HAND)
What is BY HAND stands in a list below: a name counts as long as its crate declares it, and a group of twins as long as two of it stand.
"""
import glob
import re
import sys
from collections import Counter, defaultdict

# ---- by hand: `crate: names`, parted by |
NAMES = {
    "1e a sentinel": """keeper_loss: behind first_behind index_of given_up gap_end | keeper_judge: limit_of floor | keeper_report: last_of |
        ledger_entries: waiting_from to_take | lister_text: value_among digit octet_at line_end | replay_calls: digit field_end numbers_in |
        program_io: number_of error_number reads_left words_end | keeper: word_at | frame_list: carried_or""",
    "4a by hand": """basics: least flag is_set front front_words | circle: is_length is_long length_in pdcps | frame_reader: with_octet join2 join3
        join4 | frame_writer: octet put_2 put_3 put_4 put_zeros | frame_view: view_at behind | frame_list: put taken | keeper_shelf: insert
        drop_front | keeper_loss: longer is_ahead store index_of | keeper_state: shorter is_open opened_word | keeper_judge: floor | keeper: read
        store word_at | ledger_entries: waits less | ledger: own_form raise | ledger_probe: at_most | program_io: error_number number_of feeds_in
        line_feeds | c_calls: is_status less value wide refused octets put_fields put_cursor put_range cursor_in | lister_text: value_among digit
        octet_at put_text digits_of put_decimal line_end | replay_calls: same field_end digit number_in | replay_states: kind_of_mark kind_of_fate |
        replay_answers: hex_digit put_hex put_octets""",
    "6e searched, shifted, words by place": """keeper_shelf: insert drop_front | keeper_loss: front index_of lowest given_up list_gaps |
        keeper_report: going | ledger_entries: waiting_from may_be_highest to_take without free_through place_without | ledger_marks: mark |
        keeper: put_in take_off add_record drop_records drop_runs BITS BASE REPORTED OPENED RUNS RECORDS | c_calls: FIELDS RANGES CURSOR RANGE""",
    "7d a call by case": """replay_calls: call_of numbered_call bare_call call_of_one call_of_two call_of_three call_of_four | replay_keeper: step
        lay | replay_ledger: step lay | replay_lines: feed | replay_answers: put_answer | lister_answers: put_frame | frame_reader: read_type |
        ledger: accept""",
}
C = "x2u_read x2u_first_range x2u_next_range " + " ".join("x2u_keeper_" + call for call in "open arrive expire confirm status anything".split())
TWINS = f"""basics: front front_words; circle: is_length length_in is_long pdcps; frame_layout: count_at list_at; frame_reader: final_in listed_in;
circle: modulus | frame_layout: width most_highest data_type status_type; frame_reader: join2 join3 join4; frame_writer: put_2 put_3 put_4;
frame_writer: write_data write_data_in; frame_reader: Head | frame_writer: Head; frame_reader: MOST_RANGES | frame_layout: MOST_RANGES;
frame_reader: next_range | frame_view: range_at next next_range; frame_view: behind_at behind; frame_view: view_at view_of; frame_reader: list_end |
frame_writer: status_length; frame_reader: lay_ranges | frame_writer: put_ranges; frame_writer: write_status | frame_list: write_status;
keeper_loss: gap_end past; keeper_loss: is_ahead is_before; keeper_loss: lowest given_up list_gaps; keeper_judge: Arrival Expiry |
keeper_report: Report; keeper_judge: judge_arrival judge_expiry; keeper_judge: judge_number judge_mark; keeper_judge: runs_with | keeper: slot_of;
keeper_state: held_in listed_in | keeper: held_in listed_in; keeper_state: RecordArray RunArray | keeper: RecordArray RunArray; keeper: arrive expire;
keeper: drop_runs drop_records; keeper: store_moved store_reported; keeper: Opened Confirmed | ledger: Opened; keeper: open | ledger: open;
keeper: Counted Frame | frame_writer: Wrote | ledger: Sent | keeper_report: Found; ledger: Opening Sending Accepting Taking; ledger: not_opened
not_sent not_accepted; ledger_entries: Kept Freed | ledger_marks: Marked; ledger_entries: matches may_go leaves; ledger_entries: waiting_from
may_be_highest to_take; ledger_probe: accept_turns send_rounds room_turns filled; ledger_probe: add_sent add_accepted; c_calls: {C} | c_calls_c: {C};
c_calls: put_fields put_cursor put_range; c_frames: x2u_write_data x2u_write_status_parts; ledger_entries: less | c_calls: less;
lister_text: line_end | replay_calls: field_end; lister_text: digit | replay_calls: digit; lister_text: lay_text lay_decimal;
lister_answers: put_marked | replay_parts: put_behind; lister_answers: put_range put_ranges | replay_states: put_run put_runs; replay_states: put_runs
put_records put_entries; replay_states: kind_of_mark kind_of_fate; replay_states: lay_keeper lay_ledger | replay_answers: lay_answer lay_frame;
lister_answers: has_room MOST_TEXT | replay_states: has_room MOST_TEXT; replay_calls: MOST_ROOM | replay_answers: MOST_ROOM; replay_calls: bare_call
call_of_one call_of_two call_of_three call_of_four; program_io: Came Written Taken; program_io: read_block write_once; replay_keeper: counted
confirmed framed | replay_ledger: sent accepted taken; replay_keeper: Line step lay play_keeper | replay_ledger: Line step lay play_ledger;
lister_lines: LineArray MOST_HELD Fed feed finish feed_line | replay_lines: LineArray MOST_HELD Fed feed finish take_line; lister: State ended
list_block list_some list_last list_all main | replay: State ended play_block play_came play_last play_all main; program_io: large_buffer empty_text
empty_words | frame_list: empty | lister: empty_line | lister_lines: empty_frame | replay_lines: empty_frame | replay_keeper: empty_buffer |
replay: empty_records empty_runs empty_words empty_line"""
# ---- in a function's parameters, all of them
GROUPS = {
    "5a out, at": (r"\b(out|dst): &mut", r"\bat: usize"), "5n start, end": (r"\bstart: u32", r"\bend: u32"),
    # two or more of the six, under both names that they have; starts and ends alone are a group of their own
    "5c starts, ends": (r"\bstarts: &", r"\bends: &", r"(?s)^(?!.*\b(numbers|pdcps|marks|words): &)"),
    "5b the keeper's arrays": (r"\b(numbers|pdcps|marks|words|ns|ps|cs|w): &", r"(?s)(\b(numbers|pdcps|marks|starts|ends|words|[npcse]s|w): &.*){2}"),
    "5d long, base": (r"\blong: bool", r"\bbase: u32"), "5f es, count": (r"\bes: \[Entry", r"\bcount: usize"),
    "5e frame, cursor or head": (r"\bframe: &", r"\b\w+: (frame_reader::)?(Cursor|Head)\b"),
    "5g line, held": (r"\bline: &", r"\b(held: usize|state: State|turn: Turn)"), "5h output, errors": (r"\boutput: &mut", r"\berrors: &mut"),
    "5i name, lines": (r"\bname: &", r"\blines: u64"), "5j long, place, left": (r"\blong: \w+", r"\bplace: \w+", r"\b(left|count): \w+"),
    "5k from, limit or to": (r"\bfrom: u32", r"\b(limit|to): u32"), "5l desired, minimum": (r"\bdesired: u32", r"\bminimum: u32"),
    "5m number, pdcp": (r"\b(number|first): u32", r"\bpdcp: u32"),
}
LENGTH = (r"\b(?!out:|dst:)\w+: (&|\[|Table)", r"\b(n|count): usize|\b(held|listed|gone|word): (usize|u32)")
# ---- in a line of a body
LINES = {
    "4b calls": r"basics::(least|flag|is_set)\(|num::wrapping_", "4c field: field": r"\b(\w+): \1(,| \})",
    "4d field: other.field": r"^ +(\w+): \w+\.\1\b[^(]*,$", "4e a refusal handed on": r"Refused\(\w+\) =>",
    "6c front by a length": r"basics::front(_words)?\(", "7b one word after another": r"if same\(word, b",
}
KIND = r"\bkind: u(8|32)|\bopened: u32|fn \w+_type\(.*-> u8|fn type_in\(|const (NO_TYPE|OPEN):"
FLAG = r"\b((failed|whole|found|more|opened|joins): bool|(error|refusal): [iu]32)"
TOLD = r"\b(same|going|room|more|opened|failed): bool|\.(more|whole|failed|found)\b|\bp\.opened"


class Item:
    """A declaration: its crate, file and line, kind and name, head (for a function up to its contract), contract, body and the body's line."""
    def __init__(self, path, line, lines):
        self.crate, self.path, self.line = path.split("/")[1], path, line
        found = re.match(r"(?:pub )?(?:extern \"C\" )?(fn|enum|struct|const|type) (\w+)", lines[0])
        self.kind, self.name = found.groups() if found else ("", "")
        at = lines.index("{") if "{" in lines else 1  # under a contract the body begins with a brace alone
        self.head, self.contract = re.match(r"(?s)(.*?)((?:\n    (?:requires|ensures)\b.*)?)$", "\n".join(lines[:at])).groups()
        self.first, self.body = line + at, lines[at:]
        self.text = "\n".join(lines) if self.kind != "fn" else self.head


def items_of(path, lines, first):
    """The declarations among lines of a file, of which the first has that number; those in the block of an `impl` or a trait among them."""
    at = 0
    while at < len(lines):
        block = re.match(r"((pub )?(extern \"C\" )?(fn|enum|struct)|impl\b.*\{$|(pub )?trait) ?", lines[at])
        end = next(i for i in range(at, len(lines)) if re.match(r"\}|    (requires|ensures)\b.*;$", lines[i])) if block and not lines[at].endswith(("}", ";")) else at
        if block and re.match(r"impl\b|(pub )?trait", lines[at]) and end > at:
            yield from items_of(path, [line[4:] for line in lines[at + 1:end]], first + at + 1)
        elif lines[at]:
            yield Item(path, first + at, lines[at:end + 1])
        at = end + 1


def read():
    for path in sorted(glob.glob("crates/*/src/*.rt")):
        yield from items_of(path, [re.sub(r"\s*//.*", "", line) for line in open(path, encoding="utf-8").read().split("\n")], 1)


def named(items, text):
    parts = [part.split(":") for part in text.split("|")]
    return [i for i in items if any(i.crate == crate.strip() and i.name in names.split() for crate, names in parts)]


def facts(contract, word):
    """The facts of a contract's clauses, parted at × and →: of a named one its name, else its text without what it is said of."""
    for clause in re.findall(rf"\n    {word}[ \w]*\{{(.*?)\}}(?=\n    \w|$)", contract, re.S):
        for fact in re.split(r"[×→]", clause):
            fact = re.sub(r"\.(old|new|now)\b|^[( ]+", "", re.sub(r"\s+", " ", fact).strip())
            fact = fact[:len(fact) - max(0, fact.count(")") - fact.count("("))]
            fact = re.sub(r"\w+\.Refused n$|negsuc n$", "a refusal", re.sub(r"\b(dst|out)\b", "out", fact))
            fact = re.sub(r"^(length) \w+ ≡ \w+$", "length .. ≡ ..", re.sub(r"^[\w. ]+( \+ .*)? ≤ length \w+$", ".. ≤ length ..", fact))
            if " : " not in fact.split("≡")[0]:  # what binds a name says nothing
                yield re.match(r"[A-Z]\w+(?= )", fact).group() if re.match(r"[A-Z]\w+ ", fact) else re.sub(r"^(held|count|n) ", "n ", fact)


def places(items):
    found = defaultdict(list)
    fns = [i for i in items if i.kind == "fn"]

    def add(pattern, where, text="{0.kind} {0.name}"):
        found[pattern] += [(i, i.line, text.format(i)) for i in where]
    add("1a own Option or Result", [i for i in items if i.kind == "enum" and re.search(r"\n    (Refused|Unreadable|Unopened|End|Yes|No|Done)\b", i.text)])
    add("1b a flag beside a value", [i for i in items if i.kind == "struct" and re.search(FLAG, i.text)])
    add("6b structs of arrays", [i for i in items if i.kind == "struct" and re.search(r": \[(?s:.*)(\bcount: usize|: \[)", i.text)])
    add("1c numbers for refusals", [i for i in items if i.kind == "const" and i.crate == "refusal" or re.search(r"(?s)^[^{]*\brefusal: u32", i.text)])
    add("1d numbers for kinds", [i for i in items if re.search(KIND, i.text)])
    add("1f i64 with refusals below 0", [i for i in fns if "-> i64" in i.head])
    for group in TWINS.split(";"):
        standing = named(items, group)
        for i in standing if len(standing) > 1 else []:
            add("2a twins", [i], "{0.kind} {0.name}, as " + ", ".join(f"{j.crate}::{j.name}" for j in standing if j is not i))
    for i in fns:
        body = "\n".join(i.body)
        for n, row in enumerate(i.body, i.first):
            if re.match(r" *('\w+: )?(while|loop)\b", row):  # its block goes to the brace under its first letter
                block = "\n".join(i.body[n - i.first:]).split("\n" + re.match(r" *", row).group() + "}")[0]
                found["3a steps by one" if re.search(r"[+-]= 1;", block) else "3b by a part, a cursor, a flag"].append((i, n, row.strip()))
            for pattern in (p for p, wanted in LINES.items() if re.search(wanted, row)):
                found[pattern].append((i, n, row.strip()))
        for pattern in (p for p, wanted in {**GROUPS, "6a a length beside": LENGTH}.items() if all(re.search(w, i.head) for w in wanted)):
            add(pattern, [i])
        used = {(index, array) for array, index in re.findall(r"(\w+)\[([a-z]\w*)\]", body)}
        add("6d two arrays at one index", [i] if max(Counter(index for index, _ in used).values(), default=0) > 1 else [])
        add("7a a match on a number", [i] if re.search(r"\n +\d+(\.\.=\d+)? =>", body) else [])
        add("7c told by a flag", [i] if re.search(TOLD, i.head + body) else [])
    for pattern, text in NAMES.items():
        add(pattern, named(items, text))
    for pattern, word in ("5r facts required", "requires"), ("5s facts ensured", "ensures"):
        said = defaultdict(list)
        for i, fact in ((i, fact) for i in fns for fact in sorted(set(facts(i.contract, word)))):
            said[fact].append(i)
        for fact in (f for f, where in said.items() if len(where) > 2):
            add(pattern, said[fact], "fn {0.name}: " + fact.replace("{", "{{").replace("}", "}}"))
    return found


def counted(name, where):
    crates = Counter(i.crate for i, _, _ in where)
    print(f"{name}: {len(where)} in all: " + ", ".join(f"{crate} {n}" for crate, n in sorted(crates.items())))


def main():
    if sys.argv[1:] and not re.fullmatch("--list [1-7]", " ".join(sys.argv[1:])):
        sys.exit(__doc__)
    found = places(list(read()))
    for point in sys.argv[2:] or "1234567":
        own = sorted(p for p in found if p[0] == point and found[p])
        for pattern in own if sys.argv[2:] else []:
            for i, line, text in sorted(found[pattern], key=lambda place: (place[0].path, place[1])):
                print(f"{i.path}:{line}: {pattern[:2]} {text}")
        if not sys.argv[2:]:
            counted(point, [place for pattern in own for place in found[pattern]])
            for pattern in own:
                counted("   " + pattern, found[pattern])


if __name__ == "__main__":
    main()
