"""One check of a crate by the installed prover, and what it said of each function."""
import importlib.machinery
import importlib.util
import os
import re
import shutil
import subprocess
import sys
import tempfile
from typing import Dict, List, NamedTuple

sys.dont_write_bytecode = True


def installed():
    """The module of the installed rt, from which the gate takes how a crate is checked."""
    path = shutil.which("rt")
    if not path:
        sys.exit("wrong_bodies: there is no rt on the PATH")
    loader = importlib.machinery.SourceFileLoader("rt_installed", os.path.realpath(path))
    made = importlib.util.module_from_spec(importlib.util.spec_from_loader("rt_installed", loader))
    sys.modules["rt_installed"] = made
    loader.exec_module(made)
    return made


RT = installed()
LIB = RT.rtlib
# What a proof says where the edit took away a name that it uses: that is no word on the contract. The words may begin a line of their own,
# behind a long name or without it. (A note that a name 'is not in scope here' tells only how a goal is printed.)
NAMES = re.compile(r"has no field|is not in scope(?! here)|has no `|was not admitted|is no name|not a goal")
NAMES_BEGIN = re.compile(rf"\s*(?:`[^`]*`,?\s+)?(?:{NAMES.pattern})")
# What is said of a declaration that was not looked at, as one that it names was refused: no goal, and no name that was taken away.
NOT_LOOKED_AT = re.compile(r"depends? on .*(?:rejected|refused).*(?:was|were) not checked", re.S)
# Where `gate/only` keeps what it checked of a crate, in the crate's folder.
KEPT = "out/only/kept"
# Where what a prover says of a place begins, and where anything else that it says does.
PLACE = re.compile(r"(?:note: )?(?:\./)?((?:src|specs|proofs)/\S+?):(\d+):\d+: (?:error: )?(.*)", re.S)
BEGINS = re.compile(
    r"(?:note: )?(?:\./)?(?:src|specs|proofs)/\S+?:\d+:|(?:fn|impl|struct|enum|trait) \S+: "
    r"|(?:note|help|warning|rattle|antt|so far|by-macro): |error\b|\w+=|(?:logic|statements|crate) \S"
)


class Said(NamedTuple):
    """What the prover says of a place, with all lines of it."""

    file: str
    line: int
    text: str
    is_error: bool

    @property
    def is_of_names(self):
        first, *others = self.text.split("\n")
        return bool(NAMES.search(first)) or any(NAMES_BEGIN.match(it) for it in others)

    @property
    def goal(self):
        """The name of what is not proved: a note has it at its end, an error before its text."""
        name = re.match(r"`([^`]+)`", self.text) if self.is_error else re.search(r"it is not proved that [^\n]*?\(`([^`]+)`\)", self.text)
        return name[1] if name else ""


class Verdict(NamedTuple):
    """What was said of one function: `kind` is proved, own, misfit, fell, helpless or unknown."""

    kind: str
    text: str
    calls: List[str]
    # (the names of the goals that are not proved)
    goals: List[str] = []


class Report(NamedTuple):
    status: int
    lines: List[str]
    functions: Dict[str, Verdict]
    # (an impl, a struct or an enum whose law is not proved)
    items: Dict[str, Verdict]
    errors: List[Said]
    seconds: float

    @property
    def has_verdict(self):
        return bool(self.functions)


def places_of(name: str) -> List[str]:
    """Where the function's proof stands: in a folder of its name, which begins with a `+` where it calls itself."""
    above, _, last = name.partition("::")[2].replace("::", "/").rpartition("/")
    return [f"{above}{'/' if above else ''}{mark}{last}" for mark in ("", "+")]


def own_errors(name: str, errors: List[Said]) -> List[Said]:
    """The errors in the function's own proof files."""
    own = [f"proofs/{it}" for it in places_of(name)]
    return [it for it in errors if it.is_error and os.path.dirname(it.file) in own]


def verdict(name: str, said: str, errors: List[Said]) -> Verdict:
    calls = re.search(r"it calls (.*)", said)
    names = re.findall(r"`([^`]+)`", calls[1]) if calls else []
    if said.startswith(("proved", "assumed")):
        return Verdict("proved", said, [])
    if said.startswith("could not tell"):
        return Verdict("unknown", said, names)
    own = [it for it in own_errors(name, errors) if not NOT_LOOKED_AT.search(it.text)]
    of_goals = [it for it in own if not it.is_of_names]
    if "did not prove" in said:
        goals = re.findall(r"`([^`]+)`", said.partition("did not prove")[2].partition("; it calls")[0])
        return Verdict("own", "no proof of " + ", ".join(goals), names, goals + [it.goal for it in of_goals])
    if of_goals:
        return Verdict("own", "not proved: " + (of_goals[0].goal or of_goals[0].text[:120]), names, [it.goal for it in of_goals])
    if own:
        return Verdict("misfit", re.sub(r"\s+", " ", own[0].text)[:200], names)
    if names:
        return Verdict("fell", "it calls " + ", ".join(names), names)
    return Verdict("helpless", said[:200], names)


def messages(text: str) -> List[str]:
    """What the prover says, each with the lines that go on with it."""
    found: List[str] = []
    for line in text.rstrip("\n").split("\n"):
        if found and not BEGINS.match(line):
            found[-1] += "\n" + line
        else:
            found.append(line)
    return found


def read(status: int, text: str, seconds: float) -> Report:
    lines, errors = messages(text), []
    for line in lines:
        at = PLACE.match(line)
        if at:
            errors.append(Said(at[1], int(at[2]), at[3], ": error" in line.split("\n")[0]))
    functions, items = {}, {}
    for line in lines:
        said = re.match(r"(fn|impl|struct|enum|trait) (\S+): (.*)", line)
        if said:
            (functions if said[1] == "fn" else items)[said[2]] = verdict(said[2], said[3], errors)
    return Report(status, lines, functions, items, errors, seconds)


class Room:
    """A copy of a crate's sources, with the checked work that its checks share: in the room, or in the place of `gate/only`."""

    def __init__(self, crate, below, scratch: str, keeps: bool = False):
        self.crate, self.folder = crate, f"{scratch}/{crate.name}"
        self.kept = f"{crate.folder}/{KEPT}" if keeps else f"{self.folder}.kept"
        for part in LIB.PARTS:
            if os.path.isdir(f"{crate.folder}/{part}"):
                shutil.copytree(f"{crate.folder}/{part}", f"{self.folder}/{part}")
        os.makedirs(self.kept, exist_ok=True)
        self.words = below.words(crate)
        self.seconds, self.said = 0.0, ""

    def apply(self, edit: str):
        """The texts of the files that the edit changes, over what is planted already, or why it cannot be applied."""
        return RT.read_edit(edit, self.folder)

    def write(self, texts: Dict[str, str]):
        for path, text in texts.items():
            with open(f"{self.folder}/{path}", "w", encoding="utf-8") as it:
                it.write(text)

    def text(self, path: str) -> str:
        with open(f"{self.folder}/{path}", encoding="utf-8") as it:
            return it.read()

    def run(self, words: List[str]) -> Report:
        words = [LIB.RATTLE, "check", *self.words, "--jobs", "1", "--incremental", self.kept, *words]
        with tempfile.TemporaryFile("w+", errors="replace") as out:
            how = {"cwd": self.folder, "stdin": subprocess.DEVNULL, "stdout": out, "stderr": subprocess.STDOUT}
            started = subprocess.Popen([*LIB.guarded(), *words], **how)
            _, status, used = os.wait4(started.pid, 0)
            started.returncode = os.WEXITSTATUS(status) if os.WIFEXITED(status) else -os.WTERMSIG(status)
            out.seek(0)
            seconds = used.ru_utime + used.ru_stime
            self.seconds += seconds
            text = out.read()
            if self.said:
                with open(self.said, "a", encoding="utf-8") as it:
                    it.write(text)
            return read(started.returncode, text, seconds)

    def check(self, names: Dict[str, str]) -> Report:
        """Checks the functions of these names and what they call. For a name that fits none, or several, its module is asked for; and
        all of the crate where there is no name, or a module is the crate's root."""
        asked = [*names]
        while True:
            only = [] if "" in asked else [word for it in dict.fromkeys(asked) for word in ("--only", it)]
            report = self.run(only)
            wrong = [it for it in report.lines if it.startswith("rattle: error: ")] if not report.has_verdict else []
            unfit = [it for it in asked if any(f"`{it}`" in line.partition(": help:")[0] for line in wrong)]
            if not unfit:
                return report
            asked = [names.get(it, "") if it in unfit else it for it in asked]

    def goals(self, names: List[str]) -> Dict[str, set]:
        """The goals of these functions, by the names that a check prints, in the texts that now stand in the room."""
        found: Dict[str, set] = {}
        with tempfile.TemporaryDirectory(prefix="wrong-bodies-goals-") as to:
            self.run([*[f"--start={it.partition('::')[2]}" for it in names], "--generated", to])
            for name in names:
                for at in (f"{to}/Rattle-{self.crate.name}-proofs/{it}/Goals.antt" for it in places_of(name)):
                    if os.path.isfile(at):
                        found[name] = set(re.findall(r"(?m)^abbrev pub (\S+) :", LIB.text_of(at)))
        return found
