"""Worked exchanges, as the files of `crates/kb_wire_vectors/data` have them, in the words of `kbroker script`."""
import os
import re
from typing import Dict, List, NamedTuple

# The users of an exchange without settings of its own, and those of its twin, whose names and passwords are as long.
STANDARD = {"ann": ("pw1", "a"), "bob": ("pw2", "b")}
TWINS = {"ann": ("cat", "pw3", "c"), "bob": ("dan", "pw4", "d")}
EVENT = re.compile(r"(?:open|close|at) \d+|in \d+ (?:[0-9A-Fa-f]{2})+")


class Exchange(NamedTuple):
    """Events, the users of their broker as name, password and tenant, whether it lists what stock clients ask for, and what is to be said."""

    name: str
    settings: str
    is_stock: bool
    users: Dict[str, tuple]
    events: List[str]
    wanted: List[str]


def digits_of(words: Dict[str, str], text: str) -> str:
    found = []
    for item in text.split(" "):
        value = item.partition(":")[2] if ":" in item else item
        found.append(value[1:].encode().hex() if value.startswith("'") else words.get(value, value))
    return "".join(found)


def line_of(words: Dict[str, str], text: str) -> str:
    """A line with its bytes as digits: behind `in` and `out` and a connection there are bytes."""
    parts = text.split(" ", 2)
    return " ".join([*parts[:2], digits_of(words, parts[2])]) if len(parts) == 3 and parts[0] in ("in", "out") else text


def settings_of(users: Dict[str, tuple]) -> str:
    return "".join(f'[[user]]\nname = "{name}"\npassword = "{password}"\ntenant = "{tenant}"\n' for name, (password, tenant) in users.items())


def users_of(settings: str) -> Dict[str, tuple]:
    """The users of a text of settings, which has no other key of these names."""
    values = [re.findall(rf'(?m)^{key} = "(.*)"$', settings) for key in ("name", "password", "tenant")]
    return {name: (password, tenant) for name, password, tenant in zip(*values)}


def exchange_of(name: str, lines: List[str], words: Dict[str, str]):
    """The exchange of its lines, or none where a fault is to end it."""
    if any(it.startswith("! ") for it in lines):
        return None
    settings = "".join(it[8:].strip() + "\n" for it in lines if it.startswith("settings"))
    users = users_of(settings) if settings else STANDARD
    events = [line_of(words, it) for it in lines if not it.startswith(("> ", "settings"))]
    # (a number may begin with zeros)
    events = [re.sub(r"^(\w+) 0+(?=\d)", r"\1 ", it) for it in events if EVENT.fullmatch(it)]
    return Exchange(name, settings, "for stock clients" in lines, users, events, [line_of(words, it[2:]) for it in lines if it.startswith("> ")])


def exchanges(folder: str) -> List[Exchange]:
    """Those of a folder's files, in the order of its `args`, but for those that a fault is to end."""
    text, words, found = "", {}, []
    with open(f"{folder}/args", encoding="utf-8") as args:
        for file in args.read().split():
            with open(os.path.join(folder, "data", file), encoding="utf-8") as it:
                text += it.read()
    for line in text.replace("\n    ", " ").split("\n"):
        if line.startswith("== "):
            found.append((line[3:], []))
        elif line.startswith("word "):
            name, _, meaning = line[5:].partition(" ")
            words.setdefault(name, digits_of(words, meaning))
        elif line and not line.startswith("#"):
            found[-1][1].append(line)
    return [it for it in (exchange_of(name, lines, words) for name, lines in found) if it]


def twinned(it: Exchange):
    """The exchange beside its twin: each event comes once more, on another connection, from a user of another tenant. None where its
    broker has settings of its own."""
    if it.settings:
        return None
    places = {number: place for place, number in enumerate(line.split()[1] for line in it.events if line.startswith("open "))}
    both = {**it.users, **{name: (password, tenant) for name, password, tenant in TWINS.values()}}

    def moved(line: str, by: int) -> str:
        parts = line.split(" ")
        return " ".join([parts[0], str(2 * places[parts[1]] + by), *parts[2:]])

    def renamed(line: str) -> str:
        for name, (password, _) in it.users.items():
            twin, other, _ = TWINS[name]
            line = line.replace(f"\0{name}\0{password}".encode().hex(), f"\0{twin}\0{other}".encode().hex())
        return line

    events = []
    for line in it.events:
        events += [line] if line.startswith("at ") else [moved(line, 1), renamed(moved(line, 2))]
    wanted = [moved(line, by) for by in (1, 2) for line in it.wanted]
    return Exchange(it.name, settings_of(both), it.is_stock, both, events, wanted)


def is_login(text: str, name: str, password: str) -> bool:
    return f"\0{name}\0{password}".encode().hex() in text.lower()


def logins(it: Exchange) -> Dict[str, tuple]:
    """Of each connection on which a right login comes, the place of the event that ends it and the user's tenant."""
    came, found = {}, {}
    for place, event in enumerate(it.events):
        parts = event.split(" ")
        if parts[0] != "in" or parts[1] in found:
            continue
        came[parts[1]] = came.get(parts[1], "") + parts[2]
        for name, (password, tenant) in it.users.items():
            if is_login(came[parts[1]], name, password):
                found[parts[1]] = place, tenant
    return found
