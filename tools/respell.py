#!/usr/bin/env python3
"""Spells the definitions and lemmas of specs/ and proofs/ in snake case, as today's Rattle does; run once, right after port.py.

usage: python3 tools/respell.py            at the top of the repository
       python3 tools/respell.py --list     prints the table, and what would fall together in a file, and changes nothing

A name is one that an .antt file declares below its crate's specs/ or proofs/. Types and modules keep theirs, and so do functions of src/,
strings, inputs and outputs. A name that Rattle makes for a goal, in a function's Proof.antt, keeps its own.
Rewritten are the .antt files, the clauses and imports of the .rt files, the edits of must-fail/, and names in backticks in README.md and docs/.
"""
import collections
import os
import re
import sys

ROOT = os.getcwd()
# Two old names that would fall together: one of them is called otherwise.
OTHERWISE = {
    "inOrder": "is_in_order",
    "withinHalf": "is_within_half",
    "afterSend": "world_after_send",
    "afterTake": "world_after_take",
    "allThere": "with_all_there",
    "range-text": "range_text_lem",
    "ranges-text": "ranges_text_lem",
    "is-before": "is_before_lem",
    "first-behind": "first_behind_lem",
    "ends-in": "ends_in_lem",
    "reported-state": "reported_state_lem",
    "ranges-read": "ranges_read_lem",
    "is-ahead": "is_ahead_lem",
    "from-base": "from_base_on",
    "is-beyond": "is_beyond_lem",
    "first_back": "first_back_lem",
    "may-go": "may_go_lem",
    "left_out": "left_out_lem",
    "mark-beyond": "mark_beyond_lem",
    "record-at": "record_at_lem",
    "last-pdcp": "last_pdcp_lem",
    "room_by": "room_by_lem",
    "sent-as": "sent_as_lem",
    "from-oldest": "from_oldest_lem",
    "answer-of": "answer_of_written",
    "highest-of": "highest_of_lem",
    "open-below": "open_below_lem",
    "records-with": "records_with_lem",
    "in-front": "in_front_lem",
    "runs_of": "runs_of_lem",
    "most-runs": "runs_at_most",
    "most-records": "records_at_most",
    "forward-from": "forward_from_lem",
    "status-line": "status_line_lem",
    "play-line": "play_line_lem",
    "fixed-end": "fixed_end_lem",
    "in-form": "in_form_lem",
    "count-in": "count_in_lem",
    "ranges-of": "ranges_of_lem",
    "status-fields": "status_fields_lem",
    "bad-length": "bad_length_lem",
    "read-status": "read_status_lem",
    "opened-as": "opened_as_lem",
    "words-said": "words_said_lem",
    "line-with": "line_with_lem",
    "record-kind": "record_kind_lem",
    "fate-kind": "fate_kind_lem",
    "in_place": "in_place_lem",
    "withRuns": "runs_joined",
    "withRunsI": "runs_joined_i",
    "withKeeper": "ends_with_keeper",
    "withLedger": "ends_with_ledger",
}
# Fields among them, which stand behind a dot in a proof of a function too
FIELDS = {"from-base", "most-runs", "most-records"}
# ... where what it would meet, or what it is, hangs on the crate
OTHERWISE_IN = {
    ("bearer", "statusOf"): "account_status",
    ("frame_reader", "statusOf"): "head_status",
    ("frame_writer", "statusOf"): "head_status",
    ("frame_list", "statusOf"): "head_status",
    ("replay_calls", "statusOf"): "status_call",
}
TOKEN = re.compile(r"[^\s(){}\[\].;:,@\"«»⌜⌝`'=<>&|!+*/#?\\]+'*")
DECLARED = re.compile(r"^\s*(?:(?:abbrev|pub|unfoldable|opaque)\s+)*([A-Za-z_◌][^\s(){}:;,.=]*)\s+:\s")
GOAL = re.compile(r"^(?:abbrev\s+)?(?:pub\s+)?(\S+) : tie\.")
LEFT = {"Proof.antt", "Answers.antt", "Invariants.antt"}


def snake(name):
    words = re.sub(r"(?<=[a-z0-9])[A-Z]", lambda m: "_" + m[0].lower(), name)
    return words.replace("-", "_")


def texts(*ends):
    for top in ("crates",):
        for folder, dirs, files in os.walk(os.path.join(ROOT, top)):
            dirs[:] = sorted(d for d in dirs if d not in ("out", ".git"))
            for f in sorted(files):
                if f.endswith(ends):
                    yield os.path.join(folder, f)


def of_function(path):
    """A file of a function's own proof, proofs/F/Answers.antt; the specs' Answers.antt is a module like others."""
    return os.path.basename(path) in LEFT and os.path.basename(os.path.dirname(path)) not in ("specs", "proofs")


def read(path):
    with open(path, encoding="utf-8") as f:
        return f.read()


def declared():
    names = collections.defaultdict(set)
    for path in texts(".antt"):
        if of_function(path):
            continue
        for line in read(path).split("\n"):
            if line.startswith("use ") or line.lstrip().startswith("--"):
                continue
            m = DECLARED.match(line)
            if m and re.match(r"[a-z_◌]", m[1]):
                names[m[1]].add(path[len(ROOT) + 1 :])
    return names


def table():
    rows = {}
    for name in declared():
        new = OTHERWISE.get(name, snake(name))
        if new != name:
            rows[name] = new
        # the parts of an operator stand between its operands
        for part in name.split("◌") if "◌" in name else ():
            if "-" in part:
                rows[part] = snake(part)
    return rows


def crate_of(path):
    parts = path[len(ROOT) + 1 :].split(os.sep)
    return parts[1] if parts[0] == "crates" else ""


def turned(text, rows, kept=(), seen=None, crate="", in_function=False):
    def new(m):
        word = m[0]
        if word in kept:
            return word
        if in_function and text[m.start() - 1 : m.start()] == "." and word not in FIELDS:
            return snake(word) if word in rows else word
        to = rows.get(word)
        if (crate, word) in OTHERWISE_IN:
            to = OTHERWISE_IN[crate, word]
        if to is None:
            if seen is not None:
                seen[word].add(word)
            return word
        if seen is not None:
            seen[to].add(word)
        return to

    return TOKEN.sub(new, text)


def tight(text):
    """A text of an edit, which port.py leaves: a projection stands tight at its record, and names of the library as port.py spells them."""
    text = re.sub(r"\((\w+(?: \.[a-z]\w*)+)\)", lambda m: m[1].replace(" .", "."), text)
    text = re.sub(r"(?<=[\w)]) \.(?=[a-z])", ".", text)
    text = text.replace("getD", "get_or")
    return re.sub(r"(?<![\w«.:])[a-z]+[a-z0-9]*[A-Z]\w*", lambda m: snake(m[0]), text)


def in_source(text, rows, crate):
    """A .rt file: where a function or a local of its own has the new name, the definition is imported as another, «NAME_of» or «the_NAME»."""
    alias = lambda new: f"«the_{new}»" if new.endswith("_of") else f"«{new}_of»"
    aliases = set()
    for m in TOKEN.finditer(text):
        new = OTHERWISE_IN.get((crate, m[0]), rows.get(m[0]))
        if new and re.search(rf"(?<![:.\w]){re.escape(new)}\b", text):
            aliases.add(m[0])
    lines = []
    for line in text.split("\n"):
        if line.startswith("ghost use"):
            for old in aliases:
                new = OTHERWISE_IN.get((crate, old), rows.get(old))
                line = re.sub(rf"(?<=[{{ ]){re.escape(old)}(?=[,}}])", f"{new} as {alias(new)}", line)
        else:
            for old in aliases:
                new = OTHERWISE_IN.get((crate, old), rows.get(old))
                line = re.sub(rf"(?<![\w.:«-]){re.escape(old)}(?![\w'»-])", alias(new), line)
        lines.append(line)
    return re.sub(r"«([a-z]\w*)»", lambda m: f"«{snake(m[1])}»", "\n".join(lines))


def main():
    rows = table()
    listing = "--list" in sys.argv[1:]
    if listing:
        for old, new in sorted(rows.items()):
            print(f"{old}\t{new}")
    for path in texts(".antt", ".rt", ".edit"):
        text = read(path)
        kept = set()
        if of_function(path):
            kept = {m[1] for m in map(GOAL.match, text.split("\n")) if m}
        seen = collections.defaultdict(set)
        source = in_source(text, rows, crate_of(path)) if path.endswith((".rt", ".edit")) else text
        to = turned(source, rows, kept, seen, crate_of(path), of_function(path))
        if path.endswith(".edit"):
            to = "\n".join(line[:5] + tight(line[5:]) if line.startswith(("old: ", "new: ")) else line for line in to.split("\n"))
        fallen = {new: old for new, old in seen.items() if len(old) > 1}
        if fallen:
            print(f"fall: {path[len(ROOT) + 1:]}: {fallen}")
        if to != text and not listing:
            with open(path, "w", encoding="utf-8") as f:
                f.write(to)
    pages = [os.path.join(ROOT, "README.md")] + [os.path.join(d, f) for d, _, fs in os.walk(os.path.join(ROOT, "docs")) for f in fs if f.endswith(".md")]
    for path in pages:
        text = read(path)
        to = re.sub(r"`[^`\n]*`", lambda m: turned(m[0], rows), text)
        if to != text and not listing:
            with open(path, "w", encoding="utf-8") as f:
                f.write(to)


main()
