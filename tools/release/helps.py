"""Man pages and bash completions, made from the help texts of the programs."""
import re
import subprocess

# The parts of a help text that clap writes.
TITLE = re.compile(r"(Usage|Arguments|Options|Commands):")


class Help:
    """The help text of a program, in parts."""

    def __init__(self, name, text):
        self.name, self.about, self.usage = name, text.partition("\n")[0], ""
        self.description, self.details, self.parts = [], [], {}
        part = self.description
        for line in text.splitlines():
            found = TITLE.match(line)
            if found and found[1] == "Usage":
                self.usage, part = line.partition(": ")[2].strip(), self.details
            elif found:
                part = self.parts.setdefault(found[1], [])
            elif line and not line.startswith(" ") and part not in (self.description, self.details):
                part = self.details
                part.append(line)
            else:
                part.append(line)

    def entries(self, part):
        """Returns the entries of a part: what each is called, and its text."""
        found = []
        for line in self.parts.get(part, []):
            depth = len(line) - len(line.lstrip())
            if line.strip() and depth <= 6:
                name, _, rest = line.strip().partition("  ")
                found.append((name, [rest.strip()] if rest.strip() else []))
            elif line.strip() and found:
                found[-1][1].append(line.strip())
        return [(name, " ".join(text)) for name, text in found]

    def options(self):
        """Returns the long and short options, and which of them take a value."""
        names = [name for name, _ in self.entries("Options")]
        return {it: bool(re.search(r" <| [A-Z]+$", name)) for name in names
                for it in re.findall(r"(--?[a-zA-Z][a-z-]*)", name)}

    def words(self):
        """Returns the commands: of the part Commands, or the first words of lines that the details
        indent by two below a line that ends with `words:`."""
        if "Commands" in self.parts:
            return [name.split()[0] for name, _ in self.entries("Commands")]
        parts = "\n".join(self.details).split("words:\n")[1:]
        listed = "\n".join(part.partition("\n\n")[0] for part in parts)
        rows = re.findall(r"^  ([a-z]+(?:, [a-z]+)*)(?= |$)", listed, re.M)
        return [it for row in rows for it in row.split(", ")]


def help_of(name, program, *words):
    """Returns the help of a program. Raises CalledProcessError if it gives none."""
    ran = subprocess.run([*program, *words, "--help"], check=True, capture_output=True, text=True,
                         stdin=subprocess.DEVNULL)
    return Help(name, ran.stdout)


def roff(text):
    """Returns a line of text as groff takes it."""
    escaped = text.replace("\\", "\\e").replace("-", "\\-").replace("'", "\\(aq").replace("`", "\\(ga")
    return ("\\&" if escaped.startswith((".", "\\(aq")) else "") + escaped


def verbatim(lines):
    """Returns lines that stay as they are."""
    return [".nf", *map(roff, lines), ".fi"]


def stripped(lines):
    """Returns lines without the empty ones at both ends."""
    text = "\n".join(lines).strip("\n")
    return text.split("\n") if text else []


def man(it, title, below=()):
    """Returns a man page of a help text, with the help texts of its commands."""
    page = [f'.TH {it.name.upper()} 1 "" "{title}" "User Commands"', ".SH NAME",
            f"{roff(it.name)} \\- {roff(it.about)}"]
    page += [".SH SYNOPSIS", ".nf", roff(it.usage), ".fi", ".SH DESCRIPTION",
             *verbatim(stripped(it.description[1:]) or [it.about])]
    for part in "Arguments", "Commands", "Options":
        if it.entries(part):
            page.append(f".SH {part.upper()}")
        for name, text in it.entries(part):
            page += [".TP", f".B {roff(name)}", roff(text)]
    if stripped(it.details):
        page += [".SH DETAILS", *verbatim(stripped(it.details))]
    for command in below:
        page += [f'.SH "COMMAND {roff(command.name.upper())}"',
                 *verbatim([f"Usage: {command.usage}", "", *stripped(command.description)])]
        for name, text in command.entries("Arguments") + command.entries("Options"):
            page += [".TP", f".B {roff(name)}", roff(text)]
        page += verbatim(["", *stripped(command.details)])
    return "\n".join(page) + "\n"


def completion(it, below=()):
    """Returns a bash completion: commands and options, and files where an option or an argument takes one."""
    options = {**it.options(),
               **{name: takes for command in below for name, takes in command.options().items()}}
    valued = sorted(name for name, takes in options.items() if takes)
    words = " ".join(dict.fromkeys([*it.words(), *sorted(options)]))
    function = f"_{it.name.replace('-', '_')}"
    return "\n".join([
        f"# Completion of {it.name} for bash.", f"{function}() {{",
                      '  local word=${COMP_WORDS[COMP_CWORD]} before=${COMP_WORDS[COMP_CWORD - 1]}',
        "  case $before in", f"    {' | '.join(valued) or '--'}) COMPREPLY=() ;;",
        f'    *) mapfile -t COMPREPLY < <(compgen -W "{words}" -- "$word") ;;', "  esac", "}",
                      f"complete -o default -F {function} {it.name}", ""])
