"""The functions of a Rust text: which there are, and which of them an edit changes."""
import functools
import os
import re
from collections import Counter
from typing import Dict, NamedTuple

# A comment, a string or a character: no brace or word in it counts.
ASIDE = re.compile(
    r"""//[^\n]*|/\*.*?\*/|b?r(#*)".*?"\1|b?"(?:[^"\\]|\\.)*"|b?'(?:[^'\\\n]|\\(?:x..|u\{[^}]*\}|.))'""", re.S
)
TOKEN = re.compile(r"\b(?:impl|trait|mod|fn)\b|[{}]")
HEADER_TOKEN = re.compile(r"[()\[\]{};]|\b(?:requires|ensures|ghost|decreases)\b")
CLAUSES = ("requires", "ensures", "ghost", "decreases")
# What a body branches or ends by, and which of it comes to the same number of paths.
BRANCH = re.compile(r"\b(?:return|if|else|match|while|for|loop|break|continue)\b|=>|&&|\|\||\?")
ALIKE = {"||": "&&", "while": "if", "for": "if", "loop": "if", "break": "return", "continue": "return"}
CONSTANT = re.compile(r"\b(?:const|static)\s+(\w+)\s*:.*?;[ \t]*$", re.S | re.M)


class Key(NamedTuple):
    """Where a function stands: its file, the type (and trait) of its impl, and its name."""

    file: str
    owner: str
    name: str


class Function(NamedTuple):
    start: int
    body: int
    end: int


def blanked(text: str) -> str:
    """The text with spaces in the place of comments, strings and characters."""
    return ASIDE.sub(lambda it: re.sub(r"[^\n]", " ", it[0]), text)


@functools.lru_cache(maxsize=512)
def functions_in(file: str, text: str) -> Dict[Key, Function]:
    flat, found, owners, depth, at = blanked(text), {}, [], 0, 0
    while True:
        token = TOKEN.search(flat, at)
        if not token:
            return found
        at = token.end()
        if token[0] == "{":
            depth += 1
        elif token[0] == "}":
            depth -= 1
            owners = [it for it in owners if it[0] < depth]
        elif token[0] == "fn":
            name = re.compile(r"\s+(\w+)").match(flat, at)
            if not name:
                continue
            body, at = extent(flat, name.end())
            owner = owners[-1][1] if owners else ""
            found[Key(file, owner, name[1])] = Function(token.start(), body, at)
        else:
            opens = re.compile(r"[^;{}]*\{").match(flat, at)
            if opens:
                owners.append((depth, owner_of(token[0], opens[0])))
                depth, at = depth + 1, opens.end()


def extent(flat: str, at: int):
    """Where the body of a function begins, and where the function ends: the first braces that belong to no clause are its body."""
    nested, of_clause = 0, False
    for token in HEADER_TOKEN.finditer(flat, at):
        if token.start() < at:
            continue
        if token[0] in CLAUSES:
            of_clause = of_clause or nested == 0
        elif token[0] in "([":
            nested += 1
        elif token[0] in ")]":
            nested -= 1
        elif token[0] == ";" and nested == 0:
            return token.start(), token.end()
        elif token[0] == "{":
            at = closing(flat, token.start())
            if not of_clause:
                return token.start(), at
            of_clause = False
    return len(flat), len(flat)


def closing(flat: str, at: int) -> int:
    """The place behind the brace that closes the one at this place."""
    depth = 0
    for brace in re.compile(r"[{}]").finditer(flat, at):
        depth += 1 if brace[0] == "{" else -1
        if depth == 0:
            return brace.end()
    return len(flat)


def owner_of(word: str, header: str) -> str:
    """The name that the prover gives an impl: the words of its type and behind them those of its trait, without the parameters."""
    if word != "impl":
        return re.findall(r"\w+", header)[0]
    header = re.split(r"\bwhere\b", re.sub(r"'\w+", "", header))[0]
    given = re.match(r"\s*<", header)
    depth, end = 0, 0
    for bracket in re.finditer(r"[<>]", header) if given else ():
        depth += 1 if bracket[0] == "<" else -1
        if depth == 0:
            end = bracket.end()
            break
    parameters = {re.findall(r"\w+", it)[0] for it in header[:end].strip("< >").split(",") if re.findall(r"\w+", it)}
    parts = reversed(header[end:].split(" for "))
    return "".join(word[0].upper() + word[1:] for it in parts for word in re.findall(r"\w+", it) if word not in parameters)


class Change(NamedTuple):
    """What an edit changes: functions that stood before, whether a body among them and whether a contract, whether it adds a branch or an
    exit to a body, functions that it writes anew, and constants."""

    functions: frozenset
    in_a_body: bool
    in_a_contract: bool
    branches: bool
    new: frozenset
    constants: frozenset


def change(before: Dict[str, str], after: Dict[str, str]) -> Change:
    """What differs between two states of some files."""
    changed, new, constants, in_a_body, in_a_contract, branches = set(), set(), set(), False, False, False
    for file, text in after.items():
        old, now = functions_in(file, before[file]), functions_in(file, text)
        for key, it in now.items():
            was = old.get(key)
            if not was:
                new.add(key)
            elif before[file][was.start : was.end] != text[it.start : it.end]:
                changed.add(key)
                body, one = before[file][was.body : was.end], text[it.body : it.end]
                in_a_body |= body != one
                in_a_contract |= before[file][was.start : was.body].split() != text[it.start : it.body].split()
                branches |= bool(branches_in(one) - branches_in(body))
        was = constants_in(before[file])
        constants |= {name for name, it in constants_in(text).items() if was.get(name, it) != it}
    return Change(frozenset(changed), in_a_body, in_a_contract, branches, frozenset(new), frozenset(constants))


def is_of_laws(folder: str, path: str) -> bool:
    """Whether laws alone say something by a file of definitions, through others too: the functions of those files of code that name it have
    an empty body, nine of ten, and say what their contracts say."""
    crate, module = os.path.basename(folder), lambda file: file[len("specs/") : -len(".antt")].replace("/", ".")
    texts = {}
    for part in ("specs", "src"):
        for at, _, names in os.walk(f"{folder}/{part}"):
            for name in (it for it in names if it.endswith((".rt", ".antt"))):
                with open(f"{at}/{name}", encoding="utf-8") as it:
                    texts[os.path.relpath(f"{at}/{name}", folder)] = it.read()
    found, waiting = set(), [path]
    while waiting:
        named = re.compile(rf"\b{crate}\.specs\.{re.escape(module(waiting.pop()))}\b")
        more = [file for file, text in texts.items() if file not in found and named.search(text)]
        found.update(more)
        waiting += [file for file in more if file.startswith("specs/")]
    code = [(file, texts[file]) for file in found if file.startswith("src/")]
    bodies = [text[it.body : it.end].split() for file, text in code for it in functions_in(file, text).values()]
    return bool(bodies) and 10 * sum(it in (["{}"], ["{", "}"]) for it in bodies) >= 9 * len(bodies)


def branches_in(body: str) -> Counter:
    return Counter(ALIKE.get(it, it) for it in BRANCH.findall(blanked(body)))


@functools.lru_cache(maxsize=512)
def constants_in(text: str) -> Dict[str, str]:
    return {it[1]: text[it.start() : it.end()] for it in CONSTANT.finditer(blanked(text))}


def module_of(file: str) -> str:
    """The module whose file this is, and nothing for the crate's root."""
    module = re.sub(r"^src/|\.rt$|(?:^|/)mod\.rt$", "", file).replace("/", "::")
    return "" if module in ("lib", "main") else module


def path_of(key: Key) -> str:
    """The function's name for a check of it alone: a method stands where its type does, so its file is left out."""
    module = module_of(key.file)
    return f"{key.owner}::{key.name}" if key.owner else f"{module}::{key.name}" if module else key.name


def is_of(key: Key, crate: str, name: str) -> bool:
    """Whether the prover's name is that of the function, or of a closure in it. A method stands where its type does."""
    if not key.owner:
        module = module_of(key.file) + "::" if module_of(key.file) else ""
        return name == f"{crate}::{module}{key.name}" or name.startswith(f"{crate}::{module}fn::{key.name}::")
    own = re.escape(f"{key.owner}::{key.name}")
    return bool(re.fullmatch(rf"{crate}::(?:\w+::)*?(?:{own}|fn::{own}::.*)", name))
