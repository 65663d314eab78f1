"""The items of a source file, read without a compiler: functions with and without their bodies, types, impls, traits, macros."""
import re
from dataclasses import dataclass

TOKEN = re.compile(
    r"""//[^\n]*|/\*.*?\*/|[bc]?r(\#*)".*?"\1|[bc]?"(?:[^"\\]|\\.)*"|'(?:[^'\\\n]|\\[^\n]+?)'|'[A-Za-z_]\w*|[^\W\d]\w*|\d[\w.]*|\s+|::|->|=>|[=!<>]=|.""",
    re.S | re.X,
)
OPEN, CLOSE = {"{", "(", "["}, {"}", ")", "]"}
CLAUSE = {"requires", "ensures", "ghost"}
# How items begin that end with `;`, whatever braces they have. `const fn` is none of them.
ENDED = {"use", "static", "type", "const"}


@dataclass(eq=False)
class Item:
    """An item: its name, whose it is (the type and the trait of the impl), its tokens without and with the body."""

    kind: str
    name: str
    owners: tuple
    head: list
    whole: list


def rust_tokens(text):
    """The tokens of a source file without comments."""
    words = (it[0] for it in TOKEN.finditer(text))
    return [it for it in words if not it.isspace() and not it.startswith(("//", "/*"))]


def parse(words, owners=()):
    """The items of a list of tokens, those of impls, traits and modules among them."""
    items, at = [], 0
    while at < len(words):
        start, depth, body, since = at, 0, None, at
        # An item ends with `;`, or with a group in braces that belongs to no clause and isn't the value of a constant.
        while at < len(words):
            word = words[at]
            if word in OPEN:
                opened = at if not depth else opened
                depth += 1
            elif word in CLOSE:
                depth -= 1
                if not depth and word == "}":
                    before, since = words[since:opened], at + 1
                    if not CLAUSE & {*before} and not is_ended(words[start:opened]):
                        body = opened - start, at - start
                        at += 1
                        break
            elif word == ";" and not depth:
                at += 1
                break
            at += 1
        items += items_of(words[start:at], body, owners)
    return items


def is_ended(words):
    """Whether an item that begins so ends with `;`, whatever braces it has."""
    words = words[after_attributes(words) :][:8]
    while words and words[0] in ("pub", "(", "crate", "super", "in", ")", "ghost"):
        words = words[1:]
    return bool(words) and words[0] in ENDED and words[1:2] not in (["fn"], ["unsafe"])


def after_attributes(words):
    """The place after the attributes `#[..]` and `#![..]` at the beginning."""
    at = 0
    while at < len(words) and words[at] == "#":
        at += 2 if words[at + 1] == "!" else 1
        depth = 0
        while at < len(words):
            depth += (words[at] == "[") - (words[at] == "]")
            at += 1
            if not depth:
                break
    return at


def keyword_of(words):
    """The place of the word that says what kind of item it is: past attributes, `pub(..)`, `unsafe`, `extern \"C\"` and the `const` of a function."""
    at = after_attributes(words)
    while at < len(words) and (words[at] in ("pub", "const", "unsafe", "extern", "async", "(") or words[at].startswith('"')):
        if words[at] == "const" and words[at + 1 : at + 2] not in (["fn"], ["unsafe"], ["extern"]):
            break
        if words[at] == "(":
            at = words.index(")", at)
        at += 1
    return at


def items_of(words, body, owners):
    """The item of these tokens, whose body lies between the two places, and the items in it."""
    at = keyword_of(words)
    if at >= len(words):
        return [Item("rest", "", owners, words, words)] if words else []
    kind, name = words[at], (words[at + 1 : at + 2] or [""])[0]
    if kind == "fn":
        is_seen_by_callers = not body or {"const", "cycle"} & {*words[:at]}
        return [Item("fn", name, owners, words if is_seen_by_callers else words[: body[0]], words)]
    if kind in ("impl", "trait") and body:
        mine = (name,) if kind == "trait" else owners_of(words[at + 1 : body[0]])
        inner = parse(words[body[0] + 1 : body[1]], mine)
        # What an impl or trait says beside its methods goes with its head.
        head = words[: body[0]] + [word for it in inner if it.kind not in ("fn", "use") for word in it.whole]
        return [Item(kind, mine[0], mine, head, head), *(it for it in inner if it.kind in ("fn", "use"))]
    if kind == "mod" and body:
        return parse(words[body[0] + 1 : body[1]])
    if kind == "macro_rules":
        name = words[at + 2]
    if kind in ("use", "mod", "ghost"):
        return [Item("use" if "use" in words[:3] else kind, "", owners, words, words)]
    return [Item(kind, name, owners, words, words)]


def owners_of(words):
    """Of the head of an impl, `<..> Trait<..> for Type<..> where ..`: the names of the type and of the trait."""
    depth = at = 0
    for at, word in enumerate(words):
        depth += (word == "<") - (word == ">")
        if not depth:
            at += word == ">"
            break
    flat, depth = [], 0
    for word in words[at:]:
        if word in ("where", "requires", "ensures", "ghost"):
            break
        depth += (word == "<") - (word == ">")
        if depth == 0 and word != ">":
            flat.append(word)
    cut = flat.index("for") if "for" in flat else None
    return (last_name(flat),) if cut is None else (last_name(flat[cut + 1 :]), last_name(flat[:cut]))


def last_name(words):
    """The last name of a path. Of `&mut [T]` or of a parameter there is no type's name."""
    return next((it for it in reversed(words) if re.match(r"[A-Za-z_]\w*$", it) and it not in ("mut", "dyn", "const")), "")
