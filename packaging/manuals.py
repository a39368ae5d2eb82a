#!/usr/bin/env python3
"""Writes manual pages, and completions for bash, zsh and fish, of what each command says with --help.

usage: manuals.py [--root FOLDER] HOME PREFIX

  --root FOLDER  the files go below FOLDER; what they say is of PREFIX

HOME is the folder of the commands (libexec/mps360 below PREFIX, or scripts/ of a clone). It ends with 0, with 64 for wrong use, 70 where a
command doesn't say what it is."""
import re
import subprocess
import sys
from collections.abc import Iterator, Sequence
from dataclasses import dataclass
from pathlib import Path

HERE = Path(__file__).resolve().parent
sys.path.insert(0, str(HERE.parent / "python"))

from mps360.help_text import Paragraph, Part, Row, Usage, parts_of  # noqa: E402

MOST_SHORT = 72
ENDS = re.compile(r"(?:^|(?<=[.:] ))(?:It ends with|Ends with|The exit code is)\b.*")
OPTION = re.compile(r"(--?[a-z][a-z0-9-]*)(?: ([^\s,]\S*))?(?:, |$)")
FOLDERS, FILES = ("FOLDER", "OUT"), ("FILE", "MAP", "JOB", "LISTING", "DECK", "CERTIFICATE", "PAGE.html")


@dataclass(frozen=True)
class Option:
    "an option of a command: its words, what stands for its value, empty where it takes none, and what it means"
    words: tuple[str, ...]
    value: str
    text: str

    @property
    def choices(self) -> list[str]:
        "the values that there are, where they are few"
        return self.value.split("|") if "|" in self.value else []


@dataclass(frozen=True)
class Command:
    "a command: the name on the path, and what it says of itself"
    name: str
    parts: tuple[Part, ...]

    @property
    def short(self) -> str:
        "what it does, in a line"
        first = next(part.text for part in self.parts if isinstance(part, Paragraph))
        sentence = re.split(r"(?<=[a-z)])[.:](?: |$)", first, maxsplit=1)[0].rstrip(".")
        while len(sentence) > MOST_SHORT and re.search(r"[,;] ", sentence):
            sentence = re.split(r"[,;] (?!.*[,;] )", sentence)[0]
        if sentence.count("(") > sentence.count(")"):
            sentence = sentence.rpartition(" (")[0]
        return sentence[0].lower() + sentence[1:]

    @property
    def options(self) -> list[Option]:
        "the options of the rows, and those that stand in the usage alone"
        found = [option for row in self.parts if isinstance(row, Row) and row.term.startswith("-") for option in options_of(row)]
        named = {word for option in found for word in option.words}
        for usage in self.parts:
            if isinstance(usage, Usage):
                for word, value in re.findall(r"(?<![\w-])(--[a-z][a-z0-9-]*|-o)(?: ([A-Z][\w.,|]*))?", usage.form):
                    if word not in named:
                        named.add(word)
                        found.append(Option((word,), value, ""))
        return found + [Option((word,), "", text) for word, text in (("--help", "says what there is"), ("--version", "says which one it is")) if word not in named]


def options_of(row: Row) -> Iterator[Option]:
    "the options of a row of a table"
    for word, value in OPTION.findall(row.term):
        yield Option((word,), value or "", row.text)


def commands_of(home: Path, root: str) -> Iterator[Command]:
    "each command, as it stands in a folder"
    for line in (HERE / "commands.txt").read_text().splitlines():
        if not line.startswith("#"):
            file, name = line.split()
            said = subprocess.run([home / file, "--help"], stdout=subprocess.PIPE, stdin=subprocess.DEVNULL, check=True, text=True).stdout
            if root:
                said = said.replace(str(Path(root).resolve()), "").replace(root, "")
            yield Command(name, tuple(parts_of(re.sub(rf"^(usage: |       ){re.escape(file)}(?= |$)", rf"\g<1>{name}", said, flags=re.M))))


def roff(text: str) -> str:
    "a text as a line of a manual page"
    text = text.replace("\\", "\\e")
    text = re.sub(r"(?<![\w])--?(?=[a-z])(?:[a-z0-9]|-(?=\w))*", lambda found: found[0].replace("-", "\\-"), text)
    return re.sub(r"^([.'])", r"\\&\1", text)


def rows_and_heads(parts: Sequence[Part]) -> list[bool]:
    "of each part whether it belongs to a table: it is a row, or what is said above rows"
    return [isinstance(part, Row) or isinstance(part, Paragraph) and part.text.endswith(":") and at + 1 < len(parts) and isinstance(parts[at + 1], Row)
            for at, part in enumerate(parts)]


def page(command: Command, version: str, others: Sequence[Command]) -> str:
    "the manual page of a command"
    lines = [f'.TH {command.name.upper().replace("-", chr(92) + "-")} 1 "" "{version}" "mps360"', ".SH NAME", f"{command.name} \\- {roff(command.short)}", ".SH SYNOPSIS"]
    for usage in (part for part in command.parts if isinstance(part, Usage)):
        name, _, rest = usage.form.partition(" ")
        lines += [".TP" if usage.text else ".PP", f".B {roff(name)}", *([f"{roff(rest)}"] if rest else []), *([".br", roff(usage.text)] if usage.text else [])]
    tables: list[list[str]] = []
    ends: list[list[str]] = []
    described: list[list[str]] = []
    for part, of_table in zip(command.parts, rows_and_heads(command.parts)):
        is_status = isinstance(part, Row) and part.term[0].isdigit() or isinstance(part, Paragraph) and of_table and ENDS.search(part.text)
        if isinstance(part, Paragraph):
            found = ENDS.search(part.text)
            told = part.text[:found.start()].strip() if found else part.text
            if told:
                (tables if of_table and not is_status else described).append(["." + "PP", roff(told)])
            if found:
                ends.append([".PP", roff(found[0])])
        elif isinstance(part, Row):
            (ends if is_status else tables).append([".TP", f".B {roff(part.term)}", roff(part.text)])
    for title, blocks in (("DESCRIPTION", described), ("OPTIONS", tables), ("EXIT STATUS", ends)):
        lines += [f".SH {title}", *(line for block in blocks for line in block)] if blocks else []
    also = [f".BR {other.name} (1)" for other in others if other.name != command.name]
    return "\n".join([*lines, ".SH SEE ALSO", *(line + "," for line in also[:-1]), also[-1], ""])


def bash(commands: Sequence[Command]) -> str:
    "completion for bash"
    lines = ["# completion for bash of the commands of mps360, made of what they say with --help",
             "_mps360_commands() {", "    local words=$1 files=$2 folders=$3 choices=$4 word=${COMP_WORDS[COMP_CWORD]} before=${COMP_WORDS[COMP_CWORD-1]} choice",
             "    for choice in $choices; do",
             "        if [[ $before == \"${choice%%=*}\" ]]; then",
             "            mapfile -t COMPREPLY < <(compgen -W \"$(tr '|' ' ' <<<\"${choice#*=}\")\" -- \"$word\")",
             "            return", "        fi", "    done",
             "    if [[ \" $folders \" == *\" $before \"* ]]; then", "        mapfile -t COMPREPLY < <(compgen -d -- \"$word\")",
             "    elif [[ $word == -* ]]; then", "        mapfile -t COMPREPLY < <(compgen -W \"$words\" -- \"$word\")",
             "    elif [[ \" $files \" == *\" $before \"* || $before != -* || \" $words \" != *\" $before \"* ]]; then",
             "        mapfile -t COMPREPLY < <(compgen -f -- \"$word\")", "    else", "        mapfile -t COMPREPLY < <(compgen -f -- \"$word\")", "    fi", "}"]
    for command in commands:
        words = " ".join(word for option in command.options for word in option.words)
        files = " ".join(word for option in command.options if option.value in FILES for word in option.words)
        folders = " ".join(word for option in command.options if option.value in FOLDERS for word in option.words)
        choices = " ".join(f"{word}={option.value}" for option in command.options if option.choices for word in option.words)
        function = "_mps360_of_" + re.sub(r"\W", "_", command.name)
        lines += [f"{function}() {{", f"    _mps360_commands '{words}' '{files}' '{folders}' '{choices}'", "}", f"complete -o filenames -F {function} {command.name}"]
    return "\n".join(lines) + "\n"


def quoted(text: str) -> str:
    "a text in single quotes of a shell"
    return "'" + text.replace("'", "'\\''") + "'"


def zsh(commands: Sequence[Command]) -> str:
    "completion for zsh"
    lines = ["#compdef " + " ".join(command.name for command in commands), "# made of what the commands say with --help", "case $service in"]
    for command in commands:
        lines.append(f"    {command.name})")
        words = ["        _arguments"]
        for option in command.options:
            told = re.sub(r"[\[\]:]", " ", option.text.split(";")[0])[:60].strip() or option.words[0].lstrip("-")
            action = f":value:({' '.join(option.choices)})" if option.choices else ":folder:_files -/" if option.value in FOLDERS else \
                ":file:_files" if option.value in FILES else ":value:" if option.value else ""
            words += [quoted(f"{word}[{told}]{action}") for word in option.words]
        lines += [" \\\n            ".join([*words, quoted("*:file:_files")]), "        ;;"]
    return "\n".join([*lines, "esac", ""])


def fish(command: Command) -> str:
    "completion for fish"
    lines = ["# made of what the command says with --help"]
    for option in command.options:
        for word in option.words:
            kind = f"-l {word[2:]}" if word.startswith("--") else f"-s {word[1:]}"
            value = f" -x -a {quoted(' '.join(option.choices))}" if option.choices else " -r" if option.value in FILES + FOLDERS else " -x" if option.value else ""
            lines.append(f"complete -c {command.name} {kind}{value} -d {quoted(option.text.split(';')[0][:60].strip() or word.lstrip('-'))}")
    return "\n".join(lines) + "\n"


def write(commands: Sequence[Command], prefix: Path, version: str) -> None:
    "puts all of it in place"
    places = [prefix / part for part in ("share/man/man1", "share/bash-completion/completions", "share/zsh/site-functions", "share/fish/vendor_completions.d")]
    for place in places:
        place.mkdir(parents=True, exist_ok=True)
    manual, of_bash, of_zsh, of_fish = places
    for command in commands:
        (manual / f"{command.name}.1").write_text(page(command, version, commands))
        (of_bash / command.name).write_text(bash(commands))
        (of_fish / f"{command.name}.fish").write_text(fish(command))
    (of_zsh / "_mps360").write_text(zsh(commands))


def main(words: list[str]) -> int:
    "the command; its status"
    root = words[1] if words[:1] == ["--root"] and len(words) > 1 else ""
    words = words[2:] if root else words
    if words[:1] in (["-h"], ["--help"]):
        print(__doc__)
        return 0
    if len(words) != 2:
        print("usage: manuals.py [--root FOLDER] HOME PREFIX", file=sys.stderr)
        return 64
    try:
        home, prefix = Path(words[0]), Path(root + words[1] if root else words[1])
        commands = list(commands_of(home, root))
        version = subprocess.run([home / "mps360", "--version"], stdout=subprocess.PIPE, stdin=subprocess.DEVNULL, check=True, text=True).stdout.split(",")[0].strip()
    except (OSError, subprocess.CalledProcessError) as cause:
        print(f"manuals.py: {cause}", file=sys.stderr)
        return 70
    write(commands, prefix, version)
    return 0


if __name__ == "__main__":
    sys.exit(main(sys.argv[1:]))
