"""What a loss of power may leave of a folder, for the scripts beside this file. It is no script by itself.

Until a file is synced, what was written since may be there in part, or not at all, and other bytes in its place; until the folder is
synced a name that was made may be missing, and one that was removed be there (POSIX.1-2017, fsync). What was synced, and not cut
since, stands.
"""

# In which way what is not synced is left. Of each file and of each name it is chosen anew how much.
WAYS = ["all", "none", "front", "garbage", "zeros", "uncut", "gaps"]


def written(data, at, new):
    """Bytes, after a write at a place, or after a cut to it where nothing is written."""
    if new is None:
        return data[:at] + bytes(max(0, at - len(data)))
    return data[:at] + bytes(max(0, at - len(data))) + new + data[at + len(new):]


class File:
    """A file: its bytes, those that were synced, and what was done since."""

    def __init__(self, data=b""):
        self.synced = self.now = data
        self.changes = []

    def change(self, at, new):
        self.now = written(self.now, at, new)
        self.changes.append((at, new))

    def sync(self):
        self.synced, self.changes = self.now, []

    def front(self, chance):
        """After some of the changes, in order, and a front of the next one."""
        data, count = self.synced, chance.randint(0, len(self.changes))
        for at, new in self.changes[:count]:
            data = written(data, at, new)
        for at, new in self.changes[count:count + 1]:
            if new is not None:
                data = written(data, at, new[:chance.randint(0, len(new))])
        return data

    def apart(self, chance, gaps):
        """After each change by itself, or no cut; of each write some front where there may be gaps."""
        data = self.synced
        for at, new in self.changes:
            if new is not None:
                data = written(data, at, new[:chance.randint(0, len(new))] if gaps and chance.random() < 0.5 else new)
            elif gaps and chance.random() < 0.5:
                data = written(data, at, None)
        return data

    def left(self, way, chance):
        """What a loss leaves of it."""
        if way == "all" or not self.changes or chance.random() < 0.2:
            return self.now
        if way == "none" or chance.random() < 0.2:
            return self.synced
        if way in ("uncut", "gaps"):
            return self.apart(chance, way == "gaps")
        data = self.front(chance)
        if way == "garbage":
            data += chance.randbytes(chance.randint(1, 400))
        elif way == "zeros":
            data += bytes(max(len(self.now) - len(data), chance.randint(1, 400)))
        return data


class Folder:
    """A folder of files, as its calls go by."""

    def __init__(self, files):
        self.named = {name: File(data) for name, data in files.items()}
        self.now, self.renamed = dict(self.named), []

    def name(self, name, file):
        """From now on a name is that of a file, or of none."""
        self.renamed.append((name, file))
        if file is None:
            self.now.pop(name, None)
        else:
            self.now[name] = file

    def sync(self, name):
        """A file is synced, or the folder's names."""
        if name == "":
            self.named, self.renamed = dict(self.now), []
        elif name in self.now:
            self.now[name].sync()

    def do(self, call):
        """A call is made."""
        if call.what == "make" and call.name not in self.now:
            self.name(call.name, File())
        elif call.what in ("write", "cut") and call.name in self.now:
            self.now[call.name].change(call.at, call.data if call.what == "write" else None)
        elif call.what == "remove":
            self.name(call.name, None)
        elif call.what == "rename":
            file = self.now.get(call.name)
            self.name(call.name, None)
            if call.data:
                self.name(call.data, file)
        elif call.what == "sync":
            self.sync(call.name)
        elif call.what == "sync all":
            for name in [*self.now, ""]:
                self.sync(name)

    def is_clean(self):
        """Whether all is synced but removals."""
        return all(file is None for _, file in self.renamed) and not any(it.changes for it in self.now.values())

    def open(self):
        """How much is not synced: of names, and of files."""
        return min(4, len(self.renamed)) + min(4, sum(bool(it.changes) for it in self.now.values()))

    def left(self, way, chance):
        """The files that a loss leaves."""
        found = {}
        for name in sorted({*self.named, *(name for name, _ in self.renamed)}):
            choices = [self.named.get(name), *(file for it, file in self.renamed if it == name)]
            file = choices[-1 if way == "all" else 0 if way == "none" else chance.randrange(len(choices))]
            if file is not None:
                found[name] = file.left(way, chance)
        return found
