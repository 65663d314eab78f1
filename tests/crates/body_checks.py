"""What a check of wrong bodies needs of the repository and its kit, and what it says of each."""
import glob
import os
import re
import subprocess

from body_files import fail, read

# What is said of a proof that names what isn't there any longer.
GONE = re.compile(r"has no field|is not in scope|is no name|has no  that can be named|was not admitted")


class Said:
    """What a check says of one function: its line, and the goals that fail, or that name what is gone."""

    def __init__(self, lines, crate, function):
        head = f"fn {crate}::{function}: "
        at = next((i for i, line in enumerate(lines) if line.startswith(head)), None)
        self.line = None if at is None else lines[at][len(head) :]
        self.goals, self.gone = [], []
        error = re.compile(rf"(?:\./)?proofs/{re.escape(function.replace('::', '/'))}/\w+\.antt:\d+:\d+: error: (.*)")
        for text in [found[1] for found in map(error.match, lines) if found]:
            goal = (re.findall(r"`([^`]*)`", text) or [text])[0]
            (self.gone if GONE.search(re.sub(r"`[^`]*`", "", text)) else self.goals).append(goal)
        if at is None:
            return
        self.goals += re.findall(r"`([^`]+)`", (re.findall(r"did not prove (`[^;]*)", self.line) or [""])[0])
        # The notes between the line of the function before and its own.
        while at > 0 and not lines[at - 1].startswith("fn "):
            at -= 1
            found = re.match(r"note: src/\S+ it is not proved .*\(`([^`]+)`\)", lines[at])
            self.goals += [found[1]] if found else []


def proved(crate, function, lines):
    """Whether a check says that a function is proved."""
    return f"fn {crate}::{function}: proved" in lines


def was_judged(lines):
    """Whether a check came to its end: then the compiler found no error."""
    return any(it.startswith(("only=", "logic=")) for it in lines[-2:])


def verdict(body, lines, functions=None):
    """What became of a wrong body, as (word, text): the word is refused, not refused, or again. A twin has a function of its own."""
    heard = [(it, Said(lines, body.crate, it)) for it in functions or body.functions]
    for function, said in heard:
        if said.goals:
            goals = list(dict.fromkeys(said.goals))
            more = f" and {len(goals) - 1} more" if len(goals) > 1 else ""
            return "refused", f"{function}: {goals[0]}{more}"
    for function, said in heard:
        if said.line is None:
            return "not refused", f"the check has no line on a function {function}: name it by a line 'fn:'"
    for function, said in heard:
        if "it calls " in said.line:
            return "again", f"{function}: only what it calls isn't proved"
        if said.gone and body.reason:
            return "refused", f"{function}: a name is gone, {said.gone[0]}: {body.reason}"
        if said.gone:
            return "not refused", f"{function}: only because a proof names what is gone, at {said.gone[0]}"
    return "not refused", "; ".join(f"{function}: {said.line}" for function, said in heard)


def verdicts(group, lines):
    """What became of the wrong bodies of one copy. If it doesn't compile, those with an error are not refused, and the others go anew."""
    if was_judged(lines):
        return [verdict(it, lines) for it in group]
    unknown = {found for it in lines for found in re.findall(r"error: `\w+` has no function `([^`]*)`", it)}
    if any(unknown & {*it.functions} for it in group):
        text = f"there is no function {', '.join(unknown)}: name the function by a line 'fn:'"
        return [("not refused" if unknown & {*it.functions} else "anew", text) for it in group]
    errors = [it for it in lines if re.match(r"(?:\./)?src/[^:]*:\d+:\d+: error", it)]
    text = f"it doesn't compile: {(errors or lines[-2:])[0]}"[:300]
    guilty = [any(map(it.is_at, errors)) for it in group]
    if len(group) == 1:
        return [("not refused", text)]
    return [("not refused" if it else "anew" if any(guilty) else "alone", text) for it in guilty]


class Repository:
    def __init__(self, root, is_built):
        self.is_built = is_built
        self.root = os.path.realpath(root)
        self.kit = os.path.dirname(subprocess.run(["rt", "doc"], capture_output=True, text=True, check=True).stdout.strip())
        self.uses = {}
        for line in read(f"{self.root}/crates.txt").split("\n"):
            name, _, uses = line.partition("#")[0].partition(":")
            if name.strip():
                self.uses[name.split()[0]] = uses.split()

    def folder(self, name):
        return f"{self.root}/crates/{name}"

    def below(self, name):
        """The repository's libraries below a crate, each after those that it uses."""
        found = []
        for it in self.uses[name]:
            if it in self.uses:
                found += [low for low in [*self.below(it), it] if low not in found]
        return found

    def words(self, name):
        """What `rattle check` has to know of a crate."""
        top = "src/main.rt" if os.path.isfile(f"{self.folder(name)}/src/main.rt") else "src/lib.rt"
        words = ["--crate-name", name, top, "-L", f"dependency={self.kit}/rlibs"]
        for it in dict.fromkeys(["std", *self.uses[name]]):
            rlib = f"{self.folder(it)}/out/rlib" if it in self.uses else f"{self.kit}/rlibs"
            words += ["--extern", f"{it}={rlib}/{it}.rlib"]
        for it in self.below(name):
            words += ["-L", f"dependency={self.folder(it)}/out/rlib"]
        words += ["--antt-project", f"{self.kit}/rattle/logic/antt-project.json"]
        return [*words, "--logic-built", f"{self.kit}/logic_built", "--links", f"{name}=", "--jobs", "1"]

    def is_left(self, name):
        """Whether a library is as `rt ci` leaves it, without a stamp, and is newer than its sources and than the libraries below it."""
        rlib = f"{self.folder(name)}/out/rlib"
        built = f"{rlib}/{name}.rlib/format"
        if os.path.exists(f"{rlib}/stamp") or not os.path.isfile(built):
            return False
        if self.is_built:
            return True
        changed = [f"{self.root}/crates.txt", f"{self.kit}/WHAT"]
        for part in ("src", "specs", "proofs"):
            for at, folders, files in os.walk(f"{self.folder(name)}/{part}"):
                changed += [at, *(f"{at}/{it}" for it in files)]
        # The time of a change can't be set, other than that of the contents.
        time = os.stat(built).st_mtime
        lower = [f"{self.folder(it)}/out/rlib/{it}.rlib/format" for it in self.below(name)]
        return all(os.stat(it).st_ctime < time for it in changed) and all(os.stat(it).st_mtime < time for it in lower)

    def build_below(self, names):
        """Sees to it that all libraries below these crates are those of the sources."""
        needed = list(dict.fromkeys(low for it in names for low in self.below(it)))
        if all(map(self.is_left, needed)):
            return
        lower = {low for it in needed for low in self.below(it)}
        for it in [it for it in needed if it not in lower]:
            ran = subprocess.run(["rt", "lib"], cwd=self.folder(it), stdin=subprocess.DEVNULL, stdout=subprocess.PIPE, stderr=subprocess.STDOUT, text=True)
            if ran.returncode:
                fail(f"{ran.stdout[-2000:]}\nrt lib doesn't build {it}")


def check(words, folder):
    """Runs rattle, and returns its lines, the processor seconds and the most megabytes that it took."""
    ran = subprocess.Popen(words, cwd=folder, stdin=subprocess.DEVNULL, stdout=subprocess.PIPE, stderr=subprocess.STDOUT, text=True, errors="replace")
    lines = ran.stdout.read().split("\n")
    _, status, usage = os.wait4(ran.pid, 0)
    ran.returncode = status
    if os.environ.get("WRONG_BODIES_LOG"):
        with open(os.environ["WRONG_BODIES_LOG"], "a") as log:
            log.write("\n".join(lines))
    return lines, usage.ru_utime + usage.ru_stime, usage.ru_maxrss // 1024
