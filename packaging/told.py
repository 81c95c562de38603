"""What a program tells of itself by --help, as a man page and as a completion for bash. It is no script by itself."""
import re
import subprocess

ITEM = re.compile(r" {2,6}(\S.*?)(?: {2,}(\S.*))?$")
# What of a text means something else in a man page.
PLAIN = str.maketrans({"\\": "\\e", "-": "\\-", "'": "\\(aq", "`": "\\(ga", "^": "\\(ha", "~": "\\(ti"})


class Command:
    """A program or a command of it, with all below it."""

    def __init__(self, program, words):
        self.words = words
        said = subprocess.run([program, *words[1:], "--help"], stdin=subprocess.DEVNULL, stdout=subprocess.PIPE, stderr=subprocess.DEVNULL, text=True, check=True)
        parts = sections(said.stdout)
        self.about = " ".join(it.strip() for it in parts.pop("") if it)
        self.usage = " ".join(it.strip() for it in parts.pop("Usage") if it)
        self.arguments, self.options = (items(parts.pop(it, [])) for it in ("Arguments", "Options"))
        self.commands = [Command(program, [*words, it]) for it, _ in items(parts.pop("Commands", [])) if it != "help"]
        self.further = parts

    @property
    def name(self):
        return " ".join(self.words)

    def all(self):
        """The command and all below it."""
        yield self
        for it in self.commands:
            yield from it.all()


def sections(text):
    """The lines of each part of a help text; those before the first heading stand under no name."""
    found, name = {"": []}, ""
    for line in text.split("\n"):
        begins = re.match(r"([A-Z][a-z ]*):(?: |$)", line)
        if begins:
            name, line = begins[1], line[begins.end() :]
        found.setdefault(name, []).append(line)
    return found


def items(lines):
    """The items of a part, each with what is told of it. A line that begins further right goes on with the one above it."""
    found = []
    for line in lines:
        begins = ITEM.match(line)
        if begins and not line.startswith(" " * 7):
            found.append([begins[1], begins[2] or ""])
        elif line.strip() and found:
            found[-1][1] = f"{found[-1][1]} {line.strip()}".strip()
    return [tuple(it) for it in found]


# The man page.


def plain(text):
    """A text that means itself, at the begin of a line too."""
    text = text.translate(PLAIN)
    return f"\\&{text}" if text.startswith(".") else text


def marked(text):
    """Words of a command line: what is typed as it stands is bold, what stands for something is in italics."""
    text = re.sub(r"<([^>]+)>", "\1\\1\3", text)
    text = re.sub(r"(?<!\S)(-[\w-]+)", "\2\\1\3", text)
    return plain(text).replace("\1", "\\fI").replace("\2", "\\fB").replace("\3", "\\fR")


def usage(command):
    """How a command is called."""
    return f"\\fB{plain(command.name)}\\fR{marked(command.usage[len(command.name):])}"


def listed(pairs):
    """Items, each with its text set in below it, or by itself where it has none."""
    return [line for left, right in pairs for line in ([".TP", marked(left), plain(right)] if right else [".PP", marked(left)])]


def of_command(command):
    """The part of a man page about one command."""
    lines = [f".SS {plain(command.name)}", plain(command.about.rstrip(".")) + ".", ".PP", usage(command)]
    lines += listed([*command.arguments, *command.options])
    for name, text in command.further.items():
        lines += [".PP", plain(name) + ":", ".nf", *(plain(it) for it in text if it), ".fi"]
    return lines


def man_page(program, version, date, further):
    """The man page of a program, in section 1. `further` has parts behind the commands: a heading with its items."""
    leaves = [it for it in program.all() if not it.commands]
    lines = [f'.TH {program.name.upper()} 1 "{date}" "{program.name} {version}" "User Commands"', ".nh", ".ad l", ".SH NAME"]
    lines += [plain(program.name) + r" \- " + plain(program.about[0].lower() + program.about[1:]), ".SH SYNOPSIS"]
    lines += [line for it in leaves for line in (usage(it), ".br")][:-1]
    lines += [".SH OPTIONS", *listed(program.options), ".SH COMMANDS"]
    lines += [line for it in leaves for line in of_command(it)]
    for heading, pairs in further:
        lines += [f".SH {heading}", *listed(pairs)]
    return "\n".join(lines) + "\n"


# The completion.

COMPLETION = """# Completion for bash of @NAME@. It is made from what @NAME@ tells by --help.
_@NAME@() {
    local word=${COMP_WORDS[COMP_CWORD]} before=${COMP_WORDS[COMP_CWORD - 1]} command= words= kind= at
    [[ $word == = ]] && word=
    [[ $before == = ]] && before=${COMP_WORDS[COMP_CWORD - 2]}
    for ((at = 1; at < COMP_CWORD; at++)); do
        case "$command ${COMP_WORDS[at]}" in
@PATHS@
        esac
    done
    case $command in
@WORDS@
    esac
    case "$command $before" in
@VALUES@
    esac
    case $kind in
        file) mapfile -t COMPREPLY < <(compgen -f -- "$word") ;;
        folder) mapfile -t COMPREPLY < <(compgen -d -- "$word") ;;
        value) COMPREPLY=() ;;
        *) mapfile -t COMPREPLY < <(compgen -W "$words" -- "$word") ;;
    esac
    case $kind in file | folder) compopt -o filenames 2>/dev/null ;; esac
    return 0
}
complete -F _@NAME@ @NAME@
"""
KINDS = {"FILE": "file", "FOLDER": "folder"}


def kind(text):
    """What may stand for a placeholder: a file, a folder, or some value."""
    found = re.search(r"<([^>]+)>|^\[([^]]+)\]", text)
    return KINDS.get(found[1] or found[2], "value") if found else ""


def flags(left):
    """The flags that an option is called by, the short one first."""
    return re.findall(r"(?<!\S)-[\w-]+", re.split("[<[]", left)[0].replace(",", " "))


def words_of(command):
    """The line that gives what may follow a command: its commands and flags, or a file where it takes one and no flag is begun."""
    names = [it.words[-1] for it in command.commands]
    words = " ".join([*names, *(["help"] if names else []), *(flag for left, _ in command.options for flag in flags(left))])
    place = next((kind(left) for left, _ in command.arguments), "")
    takes = f"; [[ $word == -* ]] || kind={place}" if place in KINDS.values() else ""
    return f"        '{inner(command)}') words='{words}'{takes} ;;"


def inner(command, *more):
    """The words of a command behind its program's name."""
    return " ".join([*command.words[1:], *more])


def completion(program):
    """A completion for bash of a program: its commands, their flags, and files where a flag or a command takes one."""
    paths, words, values = [], [], []
    for it in program.all():
        words.append(words_of(it))
        for below in it.commands:
            paths.append(f"            '{inner(it)} {below.words[-1]}') command='{inner(below)}' ;;")
        if it.commands:
            paths.append(f"            '{inner(it)} help') command='{inner(it, 'help')}' ;;")
            words.append(f"        '{inner(it, 'help')}') words='{' '.join(below.words[-1] for below in it.commands)}' ;;")
        for left, _ in it.options:
            if kind(left):
                names = " | ".join(f"'{inner(it)} {flag}'" for flag in flags(left))
                values.append(f"        {names}) kind={kind(left)} ;;")
    text = COMPLETION
    for place, lines in (("PATHS", paths), ("WORDS", words), ("VALUES", values), ("NAME", [program.name])):
        text = text.replace(f"@{place}@", "\n".join(lines))
    return text
