#!/usr/bin/env python3
"""python3 tests/pages/definitions_page.py [--write]: compares docs/prove/DEFINITIONS.md with the specs, lemmas and callers of the bag, or writes it: the words and
lemmas below, each with its comment in the file that has it, and the fields of a record; and all callers, each with the first sentence of its doc
comment. The last line is 'definitions_page: N words, lemmas and callers', or says what is wrong, and then the status is 1."""
import difflib
import re
import sys
from pathlib import Path

TOP = Path(__file__).resolve().parents[2]
PAGE = TOP / "docs/prove/DEFINITIONS.md"
# Text of the page, and a line for each file that it takes words from: its crate, folder and name, and the words.
PAGE_OF = """\
# Words of contracts, lemmas for callers, and callers to copy

Made by `python3 tests/pages/definitions_page.py --write` from comments: the words on which most promises rest, the lemmas that callers need, and proved callers.
`eq` is `==` of the values, v and x are values, n is a number, X and Y are lists of occurrences. The file has each definition, and `specs/*Examples.antt`
compute words on examples. Import a word as `Rattle.hashbag.specs.FILE`, and a lemma as `Rattle.hashbag.proofs.FILE`; a lemma of `hashbag_ops` has that
name in the place of `hashbag`. Any other word: `grep -rnE -B5 '(record|pub) WORD ' crates/*/specs`. For a short word it also finds fields of that
name. Names such as `IsFirstPlace` and `is_default` come from std. `CALLING.md` says how a caller is proved.

core/specs/Occurrences greatest_total count instance instance_or_itself stored add less put distinct_count SameCounts IsBag
core/specs/Bag Bag Means IsBagOf occurrences IsTallied
core/specs/Equality same_counts bag_eq
core/specs/Inserts Inserts Replaces MayFail InTurn IsMadeOf InsertsAll InsertsUpTo
core/specs/Keys InsertsNamed MayFailNamed
core/specs/Held HasFewer AreHeld Recounts
table/specs/Tables Tables most_used grown_slots room KeepsRoom Arrives IsPacked IsLeast
core/specs/Walks IsSetWalk IsWalk IsSetWalkOf IsWalkOf
core/specs/Joins IsOuterJoin IsDifference IsNotIn IsSignedDifference saturated
core/specs/JsonFaults fault
core/specs/JsonTrees IsReading IsTree IsBagTree IsTreeOfCounts
script/specs/Script step run limit_left peak arrivals IsBounded MayAllocate IsStoppedFrom
script/specs/Turns LeavesTables TablesInTurn AreTablesInTurn
ops/specs/Order rank IsMostCommon
ops/specs/Unions IsUnion
core/proofs/CallerLemmas count_inserted count_inserted_other count_inserted_any count_removed count_removed_other count_removed_any count_replaced count_replaced_other count_set count_set_other count_kept count_means count_extended count_listed count_once count_retained count_moved count_take_next left_after equal_from_counts excess_listed none_listed listed_exceeds text_names_one count_of_key less_of_key count_removed_key count_inserted_key
core/proofs/InsertLemmas all_added some_added made_means longer_by_items longer_by_numbers spends_in_turn stays_within fails_past_room none_fails takes_all
core/proofs/TakeLemmas stored_count stored_some stored_absent
core/proofs/RetainLemmas answers_are
core/proofs/ExcessLemmas excess_law
core/proofs/JoinLemmas in_walk
core/proofs/OuterJoinLemmas difference_from_outer not_in_from_outer signed_from_outer
core/proofs/Laws instance_equals
core/specs/EqualityLaws same_counts-Decides count_congr
script/proofs/RunLemmas run-insert_count
ops/proofs/Sums count_written takes_pairs
ops/proofs/ByCount answers_by_count count_retained_by
ops/proofs/Walked onto_walk all_occur
ops/proofs/MostCommon first_is_most
ops/proofs/Lengths same_length
ops/proofs/Ranked ranked_from_sort_by
callers/src
"""


def definitions(path):
    """What the file is about; and each word of it, with its comment, or nothing, and its fields."""
    comment, subject, found, word = [], None, {}, None
    for line in path.read_text("utf-8").split("\n"):
        text, depth = line.strip(), len(line) - len(line.lstrip())
        if text.startswith("-- "):
            comment.append(text[3:])
            continue
        subject = " ".join(comment) if subject is None else subject
        name = re.match(r"(abbrev pub |unfoldable pub |pub record |pub )([\w-]+)\b", text)
        if name and name[1] == "pub " and word and depth == found[word][2] + 2:
            found[word][1].append(f"`{name[2]}`")
        elif name:
            word = name[2] if name[1] == "pub record " else None
            found[name[2]] = (" ".join(comment), [], depth)
        comment = []
    return subject, found


def callers(path):
    """The first line of the file, and each public function, with the first sentence of its doc comment."""
    comment, (first, *lines) = [], path.read_text("utf-8").split("\n")
    yield first[4:]
    yield ""
    for line in lines:
        name = re.match(r"\s*pub fn (\w+)", line)
        if name:
            yield f"- `{name[1]}`: {re.split(r'(?<=[.]) ', ' '.join(comment))[0].rstrip('.')}"
        comment = comment + [line.strip()[4:]] if line.strip().startswith("///") else comment if line.startswith("#[") else []


def page():
    lines, many = [], 0
    for line in PAGE_OF.split("\n"):
        if line == "callers/src":
            for path in sorted((TOP / "crates/hashbag_callers/src").glob("*.rt")):
                rows = list(callers(path))
                lines += [f"## `{path.stem}` of `hashbag_callers`", "", *rows, ""] if len(rows) > 2 else []
                many += len(rows) - 2
            continue
        place = re.match(r"(\w+)/(specs|proofs)/(\w+) (.*)", line)
        if place is None:
            lines.append(line)
            continue
        subject, found = definitions(TOP / f"crates/hashbag_{place[1]}/{place[2]}/{place[3]}.antt")
        lines += [f"## `{place[3]}` of `hashbag_{place[1]}`", "", subject, ""]
        for word in place[4].split():
            said, fields, _ = found.get(word, ("", [], 0))
            said or sys.exit(f"definitions_page: no comment on {word}, or no {word}, in {place[3]}")
            lines.append(f"- `{word}`: {said.rstrip('.')}" + (f". Fields: {', '.join(fields)}" if fields else ""))
            many += 1
        lines.append("")
    return "\n".join(lines).rstrip("\n") + "\n", many


made, many = page()
if "--write" in sys.argv:
    PAGE.write_text(made, "utf-8")
elif PAGE.read_text("utf-8") != made:
    print("\n".join(difflib.unified_diff(PAGE.read_text("utf-8").split("\n"), made.split("\n"), "the page", "the specs", n=0, lineterm="")))
    sys.exit("definitions_page: docs/prove/DEFINITIONS.md isn't what the comments say: python3 tests/pages/definitions_page.py --write")
print(f"definitions_page: {many} words, lemmas and callers")
