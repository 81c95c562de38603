"""What the gate tries of the further edits, and what was tried of them before."""
import hashlib
import os
import re
from typing import Dict, List, NamedTuple, Optional

from planted import source
from planted.libraries import Libraries, lines_of
from planted.prover import LIB

# A line for each edit, the longest tried first: crate and edit, a sum of the texts that it was judged by and of the edit itself,
# the processor seconds that it took, and, where only goals of a new path are open, the clause that is false, in a person's words.
TRIED = "gate/tried"
HEAD = "# Written by gate/wrong_bodies --record, oldest first: edit, sum of what it is judged by and of itself, seconds, by: clause\n"
# What the chosen edits may take, in processor seconds.
ROOM = 8 * 60
# The folders of a crate's edits: those that each run of the gate tries, and all others.
EACH_RUN, FURTHER = "each-run", "further-edits"
# What the first check of a crate takes over built libraries, what a line of a library that is not built takes to prove, and what an
# edit takes that was not tried yet, in processor seconds.
A_START, A_LINE, AN_EDIT = 10.0, 0.06, 20.0


class Tried(NamedTuple):
    sum: str
    seconds: float
    # (None where the prover refused the edit by a goal that was there before it, and nothing where the clause has still to be named)
    by: Optional[str]

    @property
    def holds(self) -> bool:
        return self.by is None or bool(self.by)


def edits_of(folder: str) -> List[str]:
    """The crate's edits, first those that each run tries."""
    found = []
    for part in (EACH_RUN, FURTHER):
        at = f"{folder}/{part}"
        if os.path.isdir(at):
            found += [f"{at}/{name}" for name in sorted(os.listdir(at)) if name.endswith(".edit")]
    return found


def is_of_each_run(edit: str) -> bool:
    return os.path.basename(os.path.dirname(edit)) == EACH_RUN


def files_in(edit: str) -> List[str]:
    return re.findall(r"(?m)^file: (.*?)\s*$", LIB.text_of(edit))


def name_of(crate, edit: str) -> str:
    return f"{crate.name}/{os.path.basename(edit)[: -len('.edit')]}"


def sum_of(crate, edit: str) -> str:
    """A sum of all that the edit is judged by, which are the files that it changes and the crate's definitions, and one of the edit."""
    total = hashlib.sha256()
    specs = [it for it in LIB.files_of(crate.folder) if os.path.relpath(it, crate.folder).startswith("specs/")]
    for file in sorted({*specs, *[f"{crate.folder}/{it}" for it in files_in(edit)]}):
        total.update(repr((os.path.relpath(file, crate.folder), LIB.text_of(file))).encode())
    return f"{total.hexdigest()[:12]}-{hashlib.sha256(LIB.text_of(edit).encode()).hexdigest()[:8]}"


def known() -> Dict[str, Tried]:
    found = {}
    for line in LIB.text_of(TRIED).split("\n"):
        told, has_by, by = line.partition(" by:")
        row = told.split()
        if len(row) == 3 and not line.startswith("#"):
            found[row[0]] = Tried(row[1], float(row[2]), by.strip() if has_by else None)
    return found


def is_same_edit(was: str, now: str) -> bool:
    return was.rpartition("-")[2] == now.rpartition("-")[2]


def by_hand(crate, edits: List[str]) -> Dict[str, str]:
    """By edit, the clause that a person found false with the edit as it stands."""
    was, found = known(), {}
    for edit in edits:
        line = was.get(name_of(crate, edit))
        if line and line.by and is_same_edit(line.sum, sum_of(crate, edit)):
            found[edit] = line.by
    return found


def has_line(crate, edit: str, was: Dict[str, Tried]) -> bool:
    """Whether the edit was refused once, whatever changed since."""
    line = was.get(name_of(crate, edit))
    return bool(line) and line.holds


def is_current(crate, edit: str, was: Dict[str, Tried]) -> bool:
    """Whether the edit has a line of just these texts, which says by which clause it is refused where the prover cannot."""
    line = was.get(name_of(crate, edit))
    return bool(line) and line.holds and line.sum == sum_of(crate, edit)


def chosen(crates, edits, below: Libraries) -> Dict[str, List[str]]:
    """What the gate tries; says which. It takes the edits of each run, and of the others as many as there is room for: first those whose
    texts changed since they were refused, then those tried longest ago, and last those that were never refused, which wait for a person's
    trial."""
    was = known()
    age = {name: number for number, name in enumerate(was)}
    rows = []
    for crate in crates.values():
        for edit in edits[crate.name]:
            name = name_of(crate, edit)
            kind = 3 if name not in was or not was[name].holds else 2 if is_current(crate, edit, was) else 1
            rows.append((0 if is_of_each_run(edit) else kind, age.get(name, 0), crate.name, edit))
    rows.sort(key=lambda it: it[:2])
    taken: Dict[str, List[str]] = {}
    spent, kinds, left = 0.0, [0, 0, 0, 0], [0, 0, 0, 0]
    for kind, _, name, edit in rows:
        line = was.get(name_of(crates[name], edit))
        costs = line.seconds if line else AN_EDIT
        if name not in taken:
            costs += A_START + A_LINE * sum(map(lines_of, below.sources(crates[name])))
        if kind and spent + costs > ROOM:
            left[kind] += 1
            continue
        taken.setdefault(name, []).append(edit)
        kinds[kind] += 1
        spent += costs
    for name, picked in taken.items():
        print(f"wrong bodies: of {name} {len(picked)} of its {len(edits[name])} edits")
    print("wrong bodies: {} of each run; chosen: {} changed since they were refused, {} refused longest ago, {} not refused yet".format(*kinds))
    print("wrong bodies: left out: {} changed, {} others, {} not refused yet; gate/wrong_bodies --all --record tries them".format(*left[1:]))
    return taken


def record(crate, plans):
    """Writes down, behind all others, what was tried of the crate's edits and refused, or refused on a new path alone, where the clause is
    left to be named. The lines of those that were not refused go, and of those whose edits are gone."""
    was = known()
    for plan in plans:
        name = name_of(crate, plan.edit)
        old = was.pop(name, None) if plan.status and plan.status != "left out" else None
        if plan.status in ("refused", "new path has no proof"):
            # (a person may have named the clause meanwhile)
            by = plan.by or (old.by if old and is_same_edit(old.sum, plan.sum) else "") or ""
            was[name] = Tried(plan.sum, round(plan.seconds, 1), None if plan.status == "refused" else by)
    edits = {name_of(crate, it) for it in edits_of(crate.folder)}
    with open(TRIED, "w", encoding="utf-8") as out:
        out.write(HEAD)
        for name, it in was.items():
            if not name.startswith(f"{crate.name}/") or name in edits:
                out.write(f"{name} {it.sum} {it.seconds}{'' if it.by is None else ' by: ' + it.by}".rstrip() + "\n")


def lanes() -> int:
    """How many crates go at a time: a check of a large one takes some four gigabytes."""
    with open("/proc/meminfo") as it:
        free = int(re.search(r"MemAvailable:\s+(\d+)", it.read())[1]) // 1_000_000
    return max(1, min(len(os.sched_getaffinity(0)), free // 4))
