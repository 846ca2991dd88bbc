"""What the tools read out of the repository: crates, public functions, wrong programs, must-fail edits.

It reads the layout that `rt fmt` writes.
"""
import os
import re

TOP = os.path.dirname(os.path.dirname(os.path.dirname(os.path.abspath(__file__))))
WRONG = os.path.join(TOP, "compare", "tools", "wrong")
CRATES = os.path.join(TOP, "crates")
FN = re.compile(r'^(\s*)(pub )?(?:pub\(crate\) )?(?:extern "C" )?fn ([a-z_0-9]+)')
# the type of a refusal, and the type of the paper's number of it
REFUSAL, NUMBER = "Refusal", "u8"


def text_of(*parts):
    with open(os.path.join(TOP, *parts), encoding="utf-8") as f:
        return f.read()


# what is built or kept, and is no file of the repository
BUILT = {".git", "target", "out", "__pycache__"}


def walked(folder):
    """What stands below a folder, as os.walk has it, but for what is built."""
    for where, folders, names in os.walk(folder):
        folders[:] = sorted(set(folders) - BUILT)
        yield where, folders, sorted(names)


def files_under(folder, ending):
    for where, _, names in walked(folder):
        for name in names:
            if name.endswith(ending):
                yield os.path.join(where, name)


# ---- crates

# what the programs share
SHARED = "programs"

def crates():
    """Each crate of crates.txt with those that it needs; what stands between its name and the colon says how it is built."""
    rows = re.findall(r"(?m)^([a-z_0-9]+)(?: [^:#\n]+)?:([^#\n]*)", text_of("crates.txt"))
    return {name: needs.split() for name, needs in rows}


def is_program(crate):
    return os.path.exists(os.path.join(CRATES, crate, "src", "main.rt"))


def is_part(crate):
    """Whether a crate is a part of a program, named after one, as bench_words, and used by no other crate; or what programs share."""
    users = [other for other, needs in crates().items() if crate in needs]
    if crate == SHARED:
        return all(is_program(user) or is_part(user) for user in users)
    owners = [other for other in crates() if is_program(other) and crate.startswith(other + "_")]
    return bool(owners and users) and all(user.startswith(owners[0]) for user in users)


# ---- functions

class Function:
    """A function of a crate: `name` as docs/CONTRACTS.md has it, `Type::name`, `module::name` or `name`."""

    def __init__(self, crate, module, owner, short, public, method, answer, body=""):
        self.crate, self.module, self.owner, self.short = crate, module, owner, short
        self.public, self.method, self.answer, self.body = public, method, answer, body
        self.name = f"{owner or module}::{short}" if owner or module else short

    def spellings(self):
        """Every way in which a text may name it."""
        if self.module:
            yield f"{self.module}::{self.short}"
            yield f"{self.crate}::{self.module}::{self.short}"
        if self.owner:
            yield f"{self.owner}::{self.short}"
            yield f"{self.crate}::{self.owner}::{self.short}"
            yield f"{self.module}::{self.owner}::{self.short}"
        yield f"{self.crate}::{self.short}"
        yield self.short


def head_of(lines, start, indent):
    """A function from its name to where its body begins."""
    for i in range(start, len(lines)):
        line = lines[i].rstrip()
        if line == indent + "{" or line.endswith(" {") and not re.match(r"\s*(requires|ensures)", line):
            return "\n".join(lines[start:i + 1])
    return lines[start]


def functions(crate):
    """The functions of a crate in order; public is what a caller outside of it can name."""
    src = os.path.join(CRATES, crate, "src")
    root = next((os.path.join(src, n) for n in ("lib.rt", "main.rt") if os.path.exists(os.path.join(src, n))), None)
    if root is None:
        return
    with open(root, encoding="utf-8") as f:
        shown = set(re.findall(r"(?m)^pub mod ([a-z_0-9]+);", f.read()))
    for path in files_under(src, ".rt"):
        module = "" if path == root else os.path.relpath(path, src)[:-3].replace(os.sep, "::")
        open_to_all = os.path.basename(root) == "lib.rt" and (not module or module.split("::")[0] in shown)
        with open(path, encoding="utf-8") as f:
            lines = f.read().split("\n")
        owner, of_a_trait = None, False
        for i, line in enumerate(lines):
            block = re.match(r"impl(?:<.*?>)? (.+ for )?\W*(\w+)", line)
            if block:
                owner, of_a_trait = block.group(2), bool(block.group(1))
            elif line == "}":
                owner, of_a_trait = None, False
            m = FN.match(line)
            if m:
                head = head_of(lines, i, m.group(1))
                said = re.findall(r"\) -> ([^\n{]+)", head)
                answer = said[-1].strip() if said else ""
                inside = owner if m.group(1) else None
                end = next((j for j in range(i, len(lines)) if lines[j] == m.group(1) + "}"), i)
                body = "\n".join(lines[i + 1:end])
                method = re.search(r"\bfn \w+(?:<[^(]*>)?\(\s*&?(?:mut )?self\b", head) is not None
                public = (bool(m.group(2)) or of_a_trait) and open_to_all
                yield Function(crate, module, inside, m.group(3), public, method, answer, body)


CALL = re.compile(r"(?:(\w+)::|(\.))?\b([a-z_0-9]+)(?:::<[^()]*>)?\(")


def of_the_kit():
    """The names by which the code calls what is not the crates': the libraries of the kit, and what it takes from std."""
    named = {need for needs in crates().values() for need in needs} | {"std", "str"}
    for path in files_under(CRATES, ".rt"):
        with open(path, encoding="utf-8") as f:
            for taken in re.findall(r"(?m)^use std::([^;]*);", f.read()):
                named.update(re.findall(r"\w+", taken))
    return named - set(crates())


def reached():
    """Crate and name of each function that a program can come to, by the names in the bodies: `Type::f(` and `module::f(` are that type's or
    module's, or any where it is another name for them, `.f(` any method, and `f(` any that is no type's."""
    everything = [function for crate in crates() for function in functions(crate)]
    kit = of_the_kit()
    by_name = {}
    for function in everything:
        by_name.setdefault(function.short, []).append(function)
    found, waiting = set(), [function for function in everything if is_program(function.crate)]
    while waiting:
        function = waiting.pop()
        if (function.crate, function.name) in found:
            continue
        found.add((function.crate, function.name))
        for before, dot, name in CALL.findall(function.body):
            named = by_name.get(name, [])
            if before in kit:
                continue
            if before:
                waiting += [other for other in named if before in (other.owner, other.module.split("::")[-1], other.crate)] or named
            elif dot:
                waiting += [other for other in named if other.method]
            else:
                waiting += [other for other in named if not other.owner]
    return found


def refusing_types():
    """The type of a refusal, and the types of the crates that hold one, however deep, or that one becomes by `?`: enums, structs and aliases."""
    held, found = {}, {REFUSAL}
    for path in files_under(CRATES, ".rt"):
        with open(path, encoding="utf-8") as f:
            text = re.sub(r"//.*", "", f.read())
        found.update(re.findall(r"(?m)^impl From<(?:\w+::)*" + REFUSAL + r"> for (\w+)", text))
        # of each line of a body what stands behind the name of its field or variant
        for name, body in re.findall(r"(?ms)^(?:pub(?:\(crate\))? )?(?:enum|struct) (\w+)(?:<[^\n{]*>)? \{\n(.*?)^\}", text):
            held.setdefault(name, set()).update(re.findall(r"\w+", re.sub(r"(?m)^\s+(?:pub(?:\(crate\))? )?\w+", "", body)))
        for name, body in re.findall(r"(?m)^(?:pub(?:\(crate\))? )?(?:type|struct) (\w+)(?:<[^\n=(]*>)?(?: = |\()([^;]*);", text):
            held.setdefault(name, set()).update(re.findall(r"\w+", body))
    found.discard(NUMBER)
    while more := {name for name, parts in held.items() if parts & found} - found:
        found |= more
    return found


def can_refuse(function, types):
    """Whether an answer can be a refusal: a type stands in it that holds one, or its error is the bare number; or the function makes
    a refusal its number, by itself or by a function of its crate that it calls."""
    said = set(re.findall(r"\w+", function.answer))
    if said & types or "Self" in said and function.owner in types:
        return True
    if re.search(r"\bResult<.*, " + NUMBER + ">", function.answer):
        return True
    made = re.compile(r"\b" + NUMBER + r"::from\b|\.into\(\)")
    others = [other.short for other in functions(function.crate) if made.search(other.body)]
    return bool(made.search(function.body)) or any(re.search(rf"\b{other}\(", function.body) for other in others)


# ---- wrong programs

class Unfit(Exception):
    """A list that is not in its form."""


def wrong_crates():
    return sorted(name[:-4] for name in os.listdir(WRONG) if name.endswith(".txt"))


def wrong_programs(crate):
    """The entries of wrong/CRATE.txt: file, function, what is wrong, the old text and the new one."""
    for block in re.split(r"\n\s*\n", text_of("compare", "tools", "wrong", crate + ".txt").strip()):
        m = re.fullmatch(r"(\S+) (\S+): (.*)\n- (.*)\n\+ (.*)", block)
        if not m:
            raise Unfit(block.split("\n")[0])
        file, function, why, old, new = m.groups()
        yield file, function, why, old.strip(), new.strip()


def wrong_count(crate):
    path = os.path.join(WRONG, crate + ".txt")
    return len(re.split(r"\n\s*\n", text_of(path).strip())) if os.path.exists(path) else 0


def changed(text, function, old, new):
    """The text with the change made in the function, or None where function or old text is not there, or not once. The old text
    is looked for in the body, and in the contract only where the body does not have it. A function of a type may be named with
    it, `Type::function`, where two types of the file have one of that name."""
    owner, _, name = function.rpartition("::")
    block = re.search(r"(?m)^impl(?:<.*?>)? (?:\S+ for )?" + owner + r"(?:<.*>)? \{$", text) if owner else None
    if owner and not block:
        return None
    first, last = (block.start(), text.index("\n}\n", block.start())) if block else (0, len(text))
    starts = [m for m in re.finditer(r"(?m)^([ \t]*)(pub |pub\(crate\) )?(extern \"C\" )?fn " + name + r"\b", text) if first <= m.start() < last]
    if len(starts) != 1:
        return None
    indent, start = starts[0].group(1), starts[0].start()
    end = re.compile(r"(?m)^" + indent + r"}$").search(text, start).end()
    body = start + len(head_of(text[start:end].split("\n"), 0, indent))
    begin, stop = (body, end) if old in text[body:end] else (start, body)
    if text.count(old, begin, stop) != 1:
        return None
    return text[:begin] + text[begin:stop].replace(old, new) + text[stop:]


# ---- must-fail edits

def edits(crate):
    """The must-fail edits of a crate by name: each a list of a file, the old text and the new one."""
    for path in files_under(os.path.join(CRATES, crate, "must-fail"), ".edit"):
        steps, file, old = [], None, None
        with open(path, encoding="utf-8") as f:
            lines = f.read().split("\n")
        for line in lines:
            key, _, rest = line.partition(": ")
            if key == "file":
                file = rest
            elif key == "old":
                old = rest
            elif key == "new":
                steps.append((file, old, rest))
        yield os.path.basename(path)[:-5], steps
