"""The crates below one: as libraries where `rt` on this machine has kept or built them of just these sources, and as sources where not."""
import functools
import hashlib
import json
import os
import threading
from typing import Dict, List

from planted.prover import LIB, RT


class Libraries:
    """The libraries that there are of a repository's crates. What of `rt ci`'s is asked for stands in a room, by its key. What `gate/build` or
    `rt lib` built stands in each crate's own folder.

    A library fits only those that it was built over. So a check takes either kind alone: what was built where that is all and the other is
    not, and else what was kept. A toolchain whose `rt ci` keeps nothing has built ones alone, and takes them where only some are there, too."""

    def __init__(self, crates, room: str):
        RT.Crate.allowed = RT.handles_of(os.getcwd())
        self.kept = RT.Kept([*crates]) if hasattr(RT, "Kept") else None
        # (each crate asks those below it for theirs, again and again)
        LIB.Crate.stamp = functools.cache(LIB.Crate.stamp)
        self.room, self.alone = room, threading.RLock()
        # where the libraries are of each kind, and of which crates it is known whether they are there
        self.taken: Dict[str, str] = {}
        self.built: Dict[str, str] = {}
        self.asked = set()

    def look(self, crate):
        """Looks for the crate's libraries, and for those below it."""
        with self.alone:
            if crate.name in self.asked:
                return
            self.asked.add(crate.name)
            for it in crate.below():
                self.look(it)
            if self.kept and all(it.name in self.taken for it in crate.below()):
                self.take(crate)
            if all(it.name in self.built for it in crate.below()):
                self.take_built(crate)

    def has(self, crate) -> bool:
        """Whether a library of the crate is there, of just these sources: all in it is proved then."""
        self.look(crate)
        return crate.name in self.taken or crate.name in self.built

    def take_built(self, crate):
        """Takes a library from its crate's folder, where it is of these sources by its stamp. Where the toolchain keeps nothing, and `rt ci` leaves
        libraries there without a stamp, it is enough that it is newer than they and the libraries below."""
        at = f"{crate.folder}/out/rlib/{crate.name}.rlib"
        older = [*LIB.files_of(crate.folder), *(self.built[it.name] for it in crate.below())]
        is_newer = not self.kept and os.path.isdir(at) and all(os.path.getmtime(it) <= os.path.getmtime(at) for it in older)
        if crate.makes_rlib() and (is_newer or crate.is_built()):
            self.built[crate.name] = at

    def take(self, crate):
        key = self.kept.key(crate)
        at, to = self.kept.place(crate, False, key), f"{self.room}/{key}"
        try:
            with open(f"{at}/made.json", encoding="utf-8") as it:
                files = [(path, sum) for path, sum in json.load(it)["files"]]
            for number, (path, _) in enumerate(files):
                if path.startswith("rlib/") and not os.path.exists(f"{to}/{path[5:]}"):
                    os.makedirs(os.path.dirname(f"{to}/{path[5:]}"), exist_ok=True)
                    RT.link_or_copy(f"{at}/{number}", f"{to}/{path[5:]}")
        except (OSError, ValueError, KeyError):
            return
        self.kept.rlibs[crate.name] = hashlib.sha256(repr(files).encode()).hexdigest()
        self.taken[crate.name] = f"{to}/{crate.name}.rlib"

    def found(self, crate) -> Dict[str, str]:
        """Where the libraries are of the crates below it, all of one kind."""
        self.look(crate)
        names = [it.name for it in crate.below()]
        is_whole = lambda of: all(it in of for it in names)
        of = self.built if not self.kept or is_whole(self.built) and not is_whole(self.taken) else self.taken
        return {it: of[it] for it in names if it in of}

    def sources(self, crate) -> list:
        """The crates below it of which no library is taken."""
        found = self.found(crate)
        return [it for it in crate.below() if it.name not in found]

    def words(self, crate) -> List[str]:
        """The words of a check of the crate over those libraries, and over the sources of the others."""
        sources, found = self.sources(crate), self.found(crate)
        below = [*dict.fromkeys(name for it in [crate, *sources] for name in ["core", *it.of_kit])]
        words = ["--crate-name", crate.name, "src/main.rt" if crate.is_program else "src/lib.rt", "-L", f"dependency={RT.KIT}/rlibs"]
        for name in below:
            words += ["--extern", f"{name}={RT.KIT}/rlibs/{name}.rlib"]
        for name, path in found.items():
            words += ["-L", f"dependency={os.path.dirname(path)}"]
            if any(it.name == name for one in [crate, *sources] for it in one.deps):
                words += ["--extern", f"{name}={path}"]
        for it in sources:
            uses = dict.fromkeys(["core", *it.of_kit, *[one.name for one in it.deps]])
            words += ["--lib", f"{it.name}:{','.join(uses)}={it.folder}/src/lib.rt"]
        return [*words, "--antt-project", f"{RT.KIT}/rattle/logic/antt-project.json", "--logic-built", f"{RT.KIT}/logic_built"]


def lines_of(crate) -> int:
    """How many lines the crate's code, definitions and proofs have."""
    return sum(LIB.text_of(it).count("\n") for it in LIB.files_of(crate.folder))
