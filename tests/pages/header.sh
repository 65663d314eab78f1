#!/usr/bin/env bash
# bash tests/pages/header.sh [--write]: makes bindings/c/hashbag.h from the functions that crates/hashbag_c exports, and compares it with the file. `--write`
# writes the file. Each error has a text in bindings/c/unproved.c. The last line is 'header: N functions' or says what is wrong.
#
# The comment of a function is its doc comment. A parameter `alloc` takes no bytes, so C passes nothing for it; a slice is a pointer and a length.
set -u
cd "$(dirname "$0")/../.." || exit 2
exec python3 - "$@" <<'PYTHON'
import difflib
import re
import sys
import textwrap

HEADER = "bindings/c/hashbag.h"
FILES = ["any", "combine", "numbers", "number_batches", "number_joins", "number_orders", "number_json", "texts", "text_batches", "text_joins", "text_orders", "text_json"]
FILES += ["walks", "number_walks", "text_walks"]
TITLES = {
    "any": "bags of either kind",
    "combine": "two bags of one kind",
    "numbers": "bags of numbers",
    "number_batches": "bags of numbers, many at once",
    "number_joins": "joins of bags of numbers",
    "number_orders": "bags of numbers, in an order",
    "number_json": "bags of numbers as JSON",
    "texts": "bags of byte strings",
    "text_batches": "bags of byte strings, many at once",
    "text_joins": "joins of bags of byte strings",
    "text_orders": "bags of byte strings, in an order",
    "walks": "walks of either kind",
    "number_walks": "walks over bags of numbers",
    "text_walks": "walks over bags of byte strings",
    "text_json": "bags of byte strings as JSON",
}
TYPES = {"u64": "uint64_t ", "usize": "size_t ", "u8": "uint8_t ", "bool": "bool ", "&mut Handle": "hashbag *", "&mut Walk": "hashbag_walk *", "&mut usize": "size_t *"}
SLICES = {"&[u8]": "const uint8_t *", "&[u64]": "const uint64_t *", "&[usize]": "const size_t *", "&[isize]": "const ptrdiff_t *"}
SLICES.update({f"&mut {it[1:]}": text.removeprefix("const ") for it, text in list(SLICES.items())})

HEAD = """\
/* hashbag: counted hash multisets of numbers and of byte strings. Made by `bash tests/pages/header.sh --write` from crates/hashbag_c.
 *
 * A handle is one word. It starts as HASHBAG_NONE, which is empty: it has no bag. `hashbag_numbers_new` and `hashbag_texts_new` put a bag into
 * it, and `hashbag_free` leaves it empty again. A call on an empty handle, or on one that has a bag of the other kind, changes nothing, and
 * returns HASHBAG_EMPTY or HASHBAG_KIND, or a count of 0.
 *
 * A walk is a handle of its own, `hashbag_walk`, which starts as HASHBAG_NONE too. `hashbag_numbers_walk` and `hashbag_texts_walk` copy the pairs of a
 * bag into it, `hashbag_numbers_next` and `hashbag_texts_next` write the next ones, and `hashbag_walk_free` leaves it empty again.
 *
 * The library is proved for callers that keep to this:
 *  1. Handles. A handle was HASHBAG_NONE first, and since then only this library wrote it. It is never copied: no two handles have one bag. A
 *     call with two handles gets two different ones.
 *  2. Memory. A pointer isn't null, not even with the length 0, but for `hashbag_free(NULL)` and `hashbag_walk_free(NULL)`, which do nothing. It is
 *     aligned, and there is memory of the length that is given. What a call writes overlaps no other argument. Who replaces `malloc` replaces
 *     `realloc` and `free` too, and aligns to 16.
 *  3. Threads. A handle stays on the thread that put a bag or a walk into it, and has one call at a time, also of calls that only read. There is no call
 *     from a signal handler, or in the child of a `fork` of a program with threads.
 *
 * Lines of C aren't proved: those that leave a null pointer alone, `hashbag_error_text`, and the calls of `malloc`, `realloc` and `free`.
 */
#ifndef HASHBAG_H
#define HASHBAG_H

#include <stdbool.h>
#include <stddef.h>
#include <stdint.h>

#ifdef __cplusplus
extern "C" {
#endif

typedef struct hashbag {
    void *at;
} hashbag;

typedef struct hashbag_walk {
    void *at;
} hashbag_walk;

#define HASHBAG_NONE { NULL }

/* The version: that of the Rust crate that is ported, a hyphen, and the number of the release. */
#define HASHBAG_VERSION "@VERSION@"

/* What the calls that can fail return. */
enum hashbag_error {
    HASHBAG_OK = 0,
"""
FOOT = """
/* ---- errors */

/* Returns what a number means that a call returned, as a text: of the enum above, or `unknown error`. It isn't to be freed. This function isn't
 * proved. */
const char *hashbag_error_text(uint8_t code);

#ifdef __cplusplus
}
#endif

#endif
"""


def read(path):
    with open(path, encoding="utf-8") as file:
        return file.read()


def fail(text):
    print(f"header: {text}")
    sys.exit(1)


def comment(lines, width=116):
    """A comment of C, whose paragraphs are those of a doc comment."""
    out, paragraphs = [], "\n".join(lines).split("\n\n")
    for paragraph in paragraphs:
        paragraph = paragraph.replace("\n", " ")
        out += [""] if out else []
        out += textwrap.wrap(paragraph.replace("# Errors", "Errors:"), width, break_on_hyphens=False)
    # A heading goes on with its paragraph.
    out = [it for i, it in enumerate(out) if not (it == "" and i and out[i - 1] == "Errors:")]
    return ("/* " + "\n * ".join(out) + " */\n").replace(" * \n", " *\n")


def exports(text):
    """Name, result, parameters and lines of the doc comment of each function that is exported."""
    found = re.finditer(r'((?:^///.*\n)+)#\[unsafe\(no_mangle\)\]\npub extern "C" fn (\w+)\(([^)]*)\)(?: -> (\w+))?', text, re.M)
    for it in found:
        doc = [re.sub(r"^/// ?", "", line) for line in it[1].rstrip().split("\n")]
        pairs = [re.sub(r"\s+", " ", pair).strip() for pair in it[3].split(",")]
        yield it[2], it[4], [tuple(pair.split(": ")) for pair in pairs if pair], doc


def declared(name, result, parameters):
    """The declaration, and how many arguments a caller passes."""
    words = []
    for parameter, kind in parameters:
        if kind == "Global":
            continue
        if kind in SLICES:
            words += [f"{SLICES[kind]}{parameter}", f"size_t {parameter}_len"]
        elif kind in TYPES:
            words.append(TYPES[kind] + parameter)
        else:
            fail(f"{name}: no type of C for {kind}")
    text = (TYPES[result] if result else "void ") + name + "("
    lines = [""]
    for i, word in enumerate(words):
        if len(text + lines[-1] + word) > 116:
            lines.append("")
        lines[-1] += word + (", " if i + 1 < len(words) else "")
    return text + ("\n" + " " * len(text)).join(it.rstrip() for it in lines) + ");\n", len(words)


def variants(path, error, prefix):
    """The variants of an enum of errors, each with its number and its comment."""
    text = read(path)
    numbers = dict(re.findall(error + r"::(\w+)(?:\(_\))? => (\d+),", text))
    body = text[text.index(f"pub enum {error} {{") :].split("\n}")[0]
    for doc, name in re.findall(r"((?:^    ///.*\n)+)    #\[error[^\n]*\n    (\w+)", body, re.M):
        word = prefix + re.sub(r"(?<!^)(?=[A-Z])", "_", name).upper()
        yield word, numbers[name], " ".join(it.strip()[4:] for it in doc.rstrip().split("\n")).replace("`usize::MAX`", "`SIZE_MAX`")


def errors():
    """The numbers of errors with their comments: those of the bag, of a JSON text, and of the handle. A failed allocation has one number."""
    found = [*variants("crates/hashbag_core/src/bag.rt", "BagError", ""), *variants("crates/hashbag_core/src/json.rt", "JsonError", "JSON_")]
    yield from sorted((it for it in found if it[0] != "JSON_MEMORY"), key=lambda it: int(it[1]))
    for doc, name, number in re.findall(r"((?:^///.*\n)+)pub const (\w+): u8 = (\d+);", read("crates/hashbag_c/src/any.rt"), re.M):
        yield name, number, " ".join(it[4:] for it in doc.rstrip().split("\n"))


version = re.search(r'^pub const VERSION: &str = "(.*)";$', read("crates/hashbag_shell/src/lib.rt"), re.M)
made, functions, texts = HEAD.replace("@VERSION@", version[1]), {}, read("bindings/c/unproved.c")
for word, number, text in errors():
    if f"case HASHBAG_{word}: return " not in texts:
        fail(f"bindings/c/unproved.c has no text for HASHBAG_{word}")
    made += textwrap.indent(comment([text]), "    ") + f"    HASHBAG_{word} = {number},\n"
made += "};\n"
for file in FILES:
    made += f"\n/* ---- {TITLES[file]} */\n"
    for name, result, parameters, doc in exports(read(f"crates/hashbag_c/src/{file}.rt")):
        text, functions[name] = declared(name, result, parameters)
        made += "\n" + comment(doc) + text
made += FOOT

everywhere = sum(read(f"crates/hashbag_c/src/{it}.rt").count("no_mangle") for it in FILES)
if everywhere != len(functions):
    fail(f"{everywhere} functions are exported, and {len(functions)} of them have a doc comment")
if sys.argv[1:] == ["--write"]:
    with open(HEADER, "w", encoding="utf-8") as file:
        file.write(made)
elif made != read(HEADER):
    sys.stdout.writelines(difflib.unified_diff(read(HEADER).splitlines(True), made.splitlines(True), HEADER, "the exports"))
    fail(f"{HEADER} isn't what the exports say: bash tests/pages/header.sh --write")

print(f"header: {len(functions)} functions")
PYTHON
