"""The one table of commands and options, as the crate words_core has it: its definitions say which words each takes, and its command
line is proved to be that; beside them its sources have the sentences of help, and what the manual page says of each option. From it
tools/tables writes the table of options in docs/FORMATS.md, and the synopsis and the options of docs/goose.1. All else that lists commands
or options is held against it."""
import pathlib
import re
import textwrap
from typing import NamedTuple

TOP = pathlib.Path(__file__).resolve().parent.parent
CRATE = TOP / "crates" / "words_core"
SPECS, SOURCES = CRATE / "specs", CRATE / "src"
TEXT = r'"([^"]*)"'
# What standard input is, by the name that the program's source has for it; and of the commands that it does not name.
INTAKES = {"Script": "a script", "Records": "a classic capture", "List": "a list"}
EVENTS = "a list or capture"


class Own(NamedTuple):
    """A word of a command's own: an option with a value or without one, or an argument, which can be given several times."""
    name: str
    is_option: bool
    is_required: bool
    value: str


class Command(NamedTuple):
    name: str
    help: str
    example: str
    takes_options: bool
    own: list


def definition(source, word):
    """What stands behind the sign of equality of a definition, up to the next line at the margin."""
    found = re.search(rf"(?m)^{word} = (.*(?:\n[ }}].*)*)", source)
    if not found:
        raise AssertionError(f"words_core defines no {word}")
    return found[1]


def cases_of(source, word):
    """A definition by cases: the name of each constructor, and what stands behind its sign of equality."""
    return dict(re.findall(rf"(?m)^{word} \(?(\w+)[^=\n]*= (.*)$", source))


def code(text):
    return re.search(rf"codes {TEXT}", text)[1]


def values_said(sources):
    """How help writes the value of each option that takes one, by the rule of the option."""
    made = [it.partition("\n}\n")[0] for it in sources.split("rule_of result ≡ ")[1:]]
    return {it[:it.index(" ")]: found[1] for it in made if (found := re.search(rf"\.value_name\({TEXT}\)", it))}


def own_word(specs, rule, values):
    """The word that a rule of a command's own allows."""
    said = definition(specs, rule)
    base = re.match(r"record (\w+) ", said)
    under = own_word(specs, base[1], values) if base else None
    name = under.name if under else code(said)
    required = re.search(r"\brequired = (true|false)", said)
    is_option = under.is_option if under else "long = Some" in said or "option_named" in said
    is_required = required[1] == "true" if required else bool(under and under.is_required)
    return Own(name, is_option, is_required, values.get(rule, "" if is_option else name))


def listed(specs, word):
    """The subcommands of a list of definitions, each by the term that stands for it."""
    for term in re.split(r" ∷ | \+\+ ", definition(specs, word).replace("(", "").replace(")", "")):
        if term == "readers":
            yield from listed(specs, term)
        elif term != "[]":
            yield term


def commands():
    """The commands, in the order of the help."""
    specs = (SPECS / "CommandLine.antt").read_text()
    sources = (SOURCES / "words.rt").read_text()
    names, takes = cases_of(specs, "name_of"), cases_of(specs, "takes_options")
    values = values_said(sources)
    said = {name: rest for name, *rest in re.findall(
        rf"(?:with_plain\(\s*alloc,\s*\w+,\s*\w+|named\(\s*alloc),\s*{TEXT},\s*{TEXT},\s*\"Example: ([^\"]*)\"", sources)}
    for term in listed(specs, "subcommands"):
        if term.startswith("plain "):
            asked = term.split()[1]
            name, takes_options, rules = code(names[asked]), takes.get(asked, takes["_"]) == "true", []
        else:
            row = definition(specs, term)
            shape = definition(specs, re.search(r"shape = (\w+)", row)[1])
            name, takes_options, rules = code(shape), "has_options = true" in row, re.findall(r"\b(?!with_|new_)\w+_rule\b", shape)
        yield Command(name, *said[name], takes_options, [own_word(specs, rule, values) for rule in rules])


class Option(NamedTuple):
    """An option without a value of the commands that read events."""
    name: str
    help: str
    manual: str


def option_rows():
    """The options of the commands that read events, in their order: what the help and the manual page say of each."""
    specs, sources = (SPECS / "RequestLine.antt").read_text(), (SOURCES / "option_words.rt").read_text()
    names = cases_of(specs, "switch_name")
    rows = re.findall(rf"((?: *//.*\n)*) *\(\s*{TEXT},\s*{TEXT},?\s*\),\n", sources.partition("const OPTIONS: ")[2].partition("\n];")[0] + "\n")
    said = {name: Option(name, told, " ".join(re.findall(r"// ?(.*)", comment))) for comment, name, told in rows}
    return [said[code(names[it])] for it in listed(specs, "switches")]


def options():
    """The options of the commands that read events, each with its sentence of help."""
    return {f"--{it.name}": it.help for it in option_rows()}


def excluding():
    """The two options that say how a line is written, of which one excludes the other."""
    specs = (SPECS / "RequestLine.antt").read_text()
    names = cases_of(specs, "switch_name")
    return [code(names[it]) for it in re.search(r"\(writing_by \(is_set \(switch_name (\w+)\) rows\) \(is_set \(switch_name (\w+)\) rows\)\)", specs).groups()]


def reading():
    """The option that each command has, and its sentence of help."""
    sources = (SOURCES / "option_words.rt").read_text()
    return f"--{code(definition((SPECS / 'RequestLine.antt').read_text(), 'read_rule'))}", re.search(rf"const READ_HELP: &str = {TEXT};", sources)[1]


def usage(command):
    """A command's own words as its help writes them, behind the options, of which each command has one at least."""
    words = [" ".join(it for it in (f"--{own.name}", f"<{own.value}>") if it) if own.is_option else f"<{own.name}>..." if own.is_required else f"[{own.name}]..."
             for own in command.own if own.is_required or not own.is_option]
    return "".join(f" {it}" for it in ["[OPTIONS]", *words])


def called(command):
    """A command with its own words, as documents write it."""
    words = [f"--{it.name} {it.value}".rstrip() if it.is_option else f"{it.name} .." for it in command.own]
    return " ".join(["goose", command.name, *(it if own.is_required else f"[{it}]" for own, it in zip(command.own, words))])


def in_manual(own):
    """A word of a command's own, as the manual page writes it."""
    value = f" Ar {own.value.lower()}" if own.value else ""
    return ("" if own.is_required else "Op ") + (f"Fl -{own.name}{value}" if own.is_option else f"Ar {own.name.lower()} ...")


def intakes():
    """What each command reads from standard input, by which a message at a terminal says what is awaited."""
    source = (TOP / "crates" / "goose" / "src" / "main.rt").read_text()
    arms = re.findall(r"(?m)^ +Task::(\w+) => Intake::(\w+),$", source)
    names = dict(re.findall(rf"(?m)^ +Task::(\w+)(?:\(_\)| {{ .. }})? => {TEXT},$", (SOURCES / "words.rt").read_text()))
    return {name: EVENTS for name in names.values()} | {names[variant]: INTAKES[intake] for variant, intake in arms}


# ---- what tools/tables writes of it

def enumerated(names, mark="`"):
    *most, last = (f"{mark}{it}{mark}" for it in names)
    return f"{', '.join(most)} and {last}"


def in_formats():
    """The table of options of docs/FORMATS.md."""
    yield ""
    yield f"| Option of {enumerated(it.name for it in commands() if it.takes_options)} | Its help says |"
    yield "|---|---|"
    yield from (f"| `--{it.name}` | {it.help} |" for it in option_rows())
    read, told = reading()
    yield from (f"| `-r FILE`, `{read} FILE`, of every command | {told} |", "")


def shared_words():
    """The options of a command that reads events, as the synopsis has them: those that exclude each other in one line."""
    pair = excluding()
    alone = [f"Op Fl -{it.name}" for it in option_rows() if it.name not in pair]
    return [*alone, "Op " + " | ".join(f"Fl -{it}" for it in pair)]


def synopses():
    """The commands with the same words behind them, those that read events first, and these words."""
    found = {}
    for command in sorted(commands(), key=lambda it: not it.takes_options):
        own = sorted(command.own, key=lambda it: not it.is_option)
        words = "Op Fl r Ar file", *(shared_words() if command.takes_options else ()), *map(in_manual, own)
        found.setdefault(words, []).append(command.name)
    return found.items()


def manual_synopsis():
    """The commands and their words in the synopsis of docs/goose.1."""
    for words, names in synopses():
        yield from (".Nm", f".Cm {' | '.join(names)}", *(f".{it}" for it in words))


def marked(word):
    """A word of a text as the manual page marks it up, or None: an option, or what stands between marks."""
    found = re.fullmatch(r"(-r|--[\w-]+|`[^`]*`)([.,:;]*)", word)
    if not found:
        return None
    said, end = found[1], f" {found[2]}" if found[2] else ""
    macro = f"Fl {said[1:]}" if said[0] == "-" else f"{'Li' if len(said) > 3 else 'Ql'} {said[1:-1]}"
    return f".{macro}{end}"


def in_mdoc(text):
    """A text in the macros of the manual page: each sentence and each marked word begins a line."""
    for sentence in re.split(r"(?<=\.) +(?=[A-Z])", text):
        line = []
        for word in [*re.findall(r"`[^`]*`[.,:;]*|\S+", sentence), None]:
            macro = marked(word) if word else None
            if line and (macro or word is None):
                yield from textwrap.wrap(" ".join(line), 79, break_on_hyphens=False)
                line = []
            if macro:
                yield macro
            elif word:
                line.append(word)


def manual_options():
    """The options of the commands that read events, and what docs/goose.1 says of each."""
    for it in option_rows():
        yield from (f".It Fl -{it.name}", *in_mdoc(it.manual or f"{it.help}."))


# What is written, and where: between a line that has the mark and this word, and the next line that has the mark and "end".
MARK = "tools/tables:"
WRITTEN = {
    "docs/FORMATS.md": {"options": in_formats},
    "docs/goose.1": {"synopsis": manual_synopsis, "options": manual_options},
}


def with_written(path, text):
    """A document with what is written of the table."""
    for what, made in WRITTEN[path].items():
        lines = text.splitlines()
        begin = next(at for at, line in enumerate(lines) if f"{MARK} {what}" in line)
        end = next(at for at in range(begin, len(lines)) if f"{MARK} end" in lines[at])
        text = "\n".join([*lines[:begin + 1], *made(), *lines[end:]]) + "\n"
    return text
