"""Plants the edits of a crate, those of different functions together, and judges each by its own function."""
import os
import re
from typing import Dict, List

from planted import source
from planted.choice import is_of_each_run
from planted.prover import LIB, NOT_LOOKED_AT, Report, Room

REFUSED = "refused"
NEW_PATH = "new path has no proof"
NOT_REFUSED = "NOT REFUSED"
CALLER = "caller fell"
HELPER = "helper not proved"
MISFIT = "proof no longer fits"
GONE = "text gone"
UNREAD = "does not compile"
NOT_CODE = "not in code"
CONTRACT = "a contract changes"
UNKNOWN = "could not tell"
NO_GOAL = "no goal was tried"
LEFT = "left out"
# How many edits a round takes at most, so that what it told is written down before the next.
MOST = 48


class Plan:
    """An edit that can be planted: what it changes, and what came of it."""

    def __init__(self, edit: str, texts: Dict[str, str], before: Dict[str, str]):
        self.edit, self.name = edit, os.path.basename(edit)[: -len(".edit")]
        self.is_owed = is_of_each_run(edit)
        self.files = set(texts)
        code = {file: text for file, text in texts.items() if file.startswith("src/")}
        self.change = source.change(before, code)
        outside = any(without_bodies(file, text) != without_bodies(file, before[file]) for file, text in code.items())
        # what others read too, as a type or a constant, is changed in a round of its own
        self.is_alone = not self.change.functions or (outside and not self.change.new)
        # what of it gate/tried has: the sum of its texts, its processor seconds, and the clause that a person found false
        self.sum, self.seconds, self.by = "", 0.0, ""
        self.status, self.says = "", ""
        # the goals that are not proved, by function
        self.open: Dict[str, List[str]] = {}

    @property
    def passes(self) -> bool:
        """Whether it is refused: as the prover says, or, where the goal is one of a new path, by the clause that a person has named."""
        return self.status == REFUSED or (self.status == NEW_PATH and bool(self.by))

    def judge(self, status: str, says: str = ""):
        self.status, self.says = status, says

    def owns(self, crate: str, name: str) -> bool:
        return any(source.is_of(key, crate, name) for key in self.change.functions)

    def wrote(self, crate: str, name: str) -> bool:
        return any(source.is_of(key, crate, name) for key in self.change.new)


def without_bodies(file: str, text: str) -> str:
    """The text without the bodies of its functions."""
    for it in sorted(source.functions_in(file, text).values(), reverse=True):
        text = text[: it.body] + text[it.end :]
    return text


class Crate:
    """One crate's edits, and what earlier rounds told of who calls whom."""

    def __init__(self, crate, edits: List[str], below, scratch: str, keeps: bool = False):
        self.name, self.room = crate.name, Room(crate, below, scratch, keeps)
        # (where the crate's own library is there, all of it is proved as it stands)
        self.is_proved = below.has(crate)
        self.folder = crate.folder
        self.calls: Dict[str, set] = {}
        self.goals: Dict[str, set] = {}
        self.rounds = 0
        self.unexplained: List[str] = []
        self.before: Dict[str, str] = {}
        # (those that take a round of their own come behind all others)
        self.plans = sorted(map(self.plan, edits), key=lambda it: (it.is_alone and not it.is_owed, not it.is_owed))

    def plan(self, edit: str) -> Plan:
        texts, why = self.room.apply(edit)
        for path in texts or {}:
            self.before.setdefault(path, self.room.text(path))
        plan = Plan(edit, texts or {}, {path: self.before[path] for path in texts or {}})
        if why:
            plan.judge(GONE, why)
        elif not all(self.is_tried(path) for path in texts):
            plan.judge(NOT_CODE, "it changes " + ", ".join(sorted(texts)))
        elif plan.change.in_a_contract or plan.change.functions and not plan.change.in_a_body:
            plan.judge(CONTRACT)
        return plan

    def is_tried(self, path: str) -> bool:
        """Whether a file is code; or has definitions by which laws alone say something, and whichever law is false then refuses."""
        return path.startswith("src/") or path.startswith("specs/") and source.is_of_laws(self.folder, path)

    def run(self, has_time=lambda: True, told=lambda: None):
        """Tries all edits, as long as there is time, and those of each run whatever time there is. Says after each round that it is told."""
        while True:
            waiting = [it for it in self.plans if not it.status]
            if not has_time():
                for it in waiting:
                    if not it.is_owed:
                        it.judge(LEFT, "for want of time")
                waiting = [it for it in waiting if it.is_owed]
            if not waiting:
                break
            self.round(self.chosen(waiting))
            told()

    def names(self, plans: List[Plan]) -> Dict[str, str]:
        """The names by which the functions of the edits are checked, and the module of each. An edit of a constant is tried by those that
        name it, and one of any other text by all of the crate."""
        keys = {key for it in plans for key in it.change.functions | it.change.new}
        for plan in plans:
            if not plan.change.functions:
                users = self.users(plan.change.constants)
                if not users:
                    return {}
                keys |= users
        return {source.path_of(it): source.module_of(it.file) for it in sorted(keys)}

    def users(self, constants) -> set:
        """The functions that name one of the constants."""
        found = set()
        for at in LIB.files_of(self.room.folder):
            file = os.path.relpath(at, self.room.folder)
            text = self.room.text(file) if file.startswith("src/") else ""
            for key, it in source.functions_in(file, text).items():
                if any(re.search(rf"\b{name}\b", text[it.start : it.end]) for name in constants):
                    found.add(key)
        return found

    # -- which edits go together

    def chosen(self, waiting: List[Plan]) -> List[Plan]:
        """As many edits as change functions that do not hide one another, planted in the room."""
        self.room.write(self.before)
        if waiting[0].is_alone:
            return self.plant([waiting[0]])
        picked: List[Plan] = []
        for plan in waiting:
            if len(picked) < MOST and not plan.is_alone and not any(self.clash(plan, it) for it in picked):
                picked += self.plant([plan])
        return picked

    def plant(self, plans: List[Plan]) -> List[Plan]:
        """Those of the edits whose texts still stand once among what is planted."""
        done = []
        for plan in plans:
            texts, why = self.room.apply(plan.edit)
            if not why:
                self.room.write(texts)
                done.append(plan)
        return done

    def clash(self, one: Plan, other: Plan) -> bool:
        if (one.change.functions | one.change.new) & (other.change.functions | other.change.new):
            return True
        return self.reaches(one, other) or self.reaches(other, one)

    def reaches(self, caller: Plan, callee: Plan) -> bool:
        """Whether a function of the one edit is known to call, by whatever way, one of the other."""
        seen = [it for it in self.calls if caller.owns(self.name, it)]
        for name in seen:
            if callee.owns(self.name, name):
                return True
            seen += [it for it in self.calls.get(name, ()) if it not in seen]
        return False

    # -- what came of a round

    def round(self, plans: List[Plan]):
        self.rounds += 1
        report = self.room.check(self.names(plans))
        for plan in plans:
            plan.seconds += report.seconds / len(plans)
        if not report.has_verdict:
            self.unread(report, plans)
            return
        for name, it in report.functions.items():
            self.calls.setdefault(name, set()).update(it.calls)
        for plan in plans:
            self.judge(plan, report, plans)
        of_an_edit = lambda name: any(it.owns(self.name, name) or it.wrote(self.name, name) for it in plans)
        if not any(it.is_alone for it in plans):
            self.unexplained += [f"{name}: {it.text}" for name, it in report.functions.items() if it.kind == "own" and not of_an_edit(name)]
        self.control([it for it in plans if it.status in (REFUSED, NEW_PATH)])

    def control(self, plans: List[Plan]):
        """Looks whether what refuses the edits is proved without them, where that is not known, and whether new paths alone are open."""
        self.room.write(self.before)
        if plans and not self.is_proved and self.room.check(self.names(plans)).status:
            for it in plans:
                it.judge(UNKNOWN, "what it changes is not proved without it either")
            return
        doubtful = [it for it in plans if it.status == NEW_PATH]
        names = [name for it in doubtful for name in it.open if name not in self.goals]
        if names:
            self.goals.update(self.room.goals(names))
        for it in doubtful:
            old = [goal for name, goals in it.open.items() for goal in goals if goal in self.goals.get(name, ())]
            if old:
                it.judge(REFUSED, f"{', '.join(it.open)}: no proof of {', '.join(dict.fromkeys(old))}")

    def judge(self, plan: Plan, report: Report, plans: List[Plan]):
        if not plan.change.functions:
            self.judge_alone(plan, report)
            return
        own = {name: it for name, it in report.functions.items() if plan.owns(self.name, name)}
        kinds = {it.kind: f"{name}: {it.text}" for name, it in reversed([*own.items()])}
        helpers = [name for name, it in report.functions.items() if it.kind != "proved" and plan.wrote(self.name, name)]
        goals = self.noted(plan, report) if {*kinds} - {"proved"} else []
        if helpers:
            plan.judge(HELPER, ", ".join(helpers))
        elif "own" in kinds or goals:
            plan.open = {name: [*it.goals, *goals] for name, it in own.items() if it.kind != "proved"}
            noted = f"{', '.join(plan.open)}: no proof of {', '.join(dict.fromkeys(goals))}"
            plan.judge(NEW_PATH if plan.change.branches else REFUSED, kinds.get("own") or noted)
        elif "misfit" in kinds:
            plan.judge(MISFIT, kinds["misfit"])
        elif "fell" in kinds:
            # (else another edit of the round hides it, and it waits for a round without that)
            if not any(self.reaches(plan, it) for it in plans if it is not plan):
                plan.judge(CALLER, kinds["fell"])
        elif "unknown" in kinds:
            plan.judge(UNKNOWN, kinds["unknown"])
        elif "helpless" in kinds or not own:
            plan.judge(NO_GOAL, kinds.get("helpless", "the prover names no function that it changes"))
        else:
            fallen = [name for name, it in report.functions.items() if it.kind != "proved"] if plan.is_alone else []
            plan.judge(CALLER if fallen else NOT_REFUSED, ", ".join(fallen or own))

    def noted(self, plan: Plan, report: Report) -> List[str]:
        """The goals that are noted as not proved at places of the functions that the edit changes."""
        found = []
        for said in report.errors:
            if said.goal and not said.is_error and said.file in plan.files:
                text = self.room.text(said.file)
                line = lambda at: text.count("\n", 0, at) + 1
                functions = source.functions_in(said.file, text)
                if any(key in plan.change.functions and line(it.start) <= said.line <= line(it.end) for key, it in functions.items()):
                    found.append(said.goal)
        return found

    def judge_alone(self, plan: Plan, report: Report):
        """An edit of what is no function's own is refused by whoever has a goal that is not proved."""
        failed = {**report.items, **report.functions}
        kinds = {it.kind: f"{name}: {it.text}" for name, it in reversed([*failed.items()])}
        # (what a derive writes is no function's own, so a lemma may be what it makes false)
        of_proofs = [it for it in report.errors if it.is_error and it.file.startswith("proofs/")]
        lemmas = [f"{it.file}: {it.text[:150]}" for it in of_proofs if not it.is_of_names and not NOT_LOOKED_AT.search(it.text)]
        if lemmas:
            kinds.setdefault("own", lemmas[0])
        for kind, status in (("own", REFUSED), ("misfit", MISFIT), ("helpless", NO_GOAL), ("unknown", UNKNOWN), ("fell", CALLER)):
            if kind in kinds:
                plan.judge(status, kinds[kind])
                return
        plan.judge(NOT_REFUSED)

    def unread(self, report: Report, plans: List[Plan]):
        """The texts did not reach the prover: those to blame are judged so, and the others wait for another round."""
        said = re.sub(r"\s+", " ", next((it for it in report.lines if "error" in it), report.lines[-1] if report.lines else ""))[:200]
        blamed = [it for it in plans if len(plans) == 1 or self.is_blamed(it, report)]
        if not blamed:
            half = len(plans) // 2
            for part in (plans[:half], plans[half:]):
                self.room.write(self.before)
                planted = self.plant(part)
                if planted:
                    self.round(planted)
            return
        for plan in blamed:
            plan.judge(UNREAD if report.status > 0 else UNKNOWN, said or "the prover was killed")

    def is_blamed(self, plan: Plan, report: Report) -> bool:
        mine = plan.change.functions | plan.change.new
        for file, line, _, is_error in report.errors:
            if not is_error or file not in plan.files:
                continue
            text = self.room.text(file)
            at = [len(it) for it in text.split("\n")]
            place = sum(at[: line - 1]) + line - 1
            for key, it in source.functions_in(file, text).items():
                if key in mine and it.start <= place + at[line - 1] and place <= it.end:
                    return True
        return False
