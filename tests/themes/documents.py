"""The documents name what there is. The tables of docs/tables are those that tools/tables writes of the sources. The words,
modules, calls and clauses that are written by hand beside them stand in the sources; each wrong body that the gate tries
names the call and the clause that refuse it; links lead somewhere; crates.txt names the crates that sources use. And the
documents are short."""
import importlib.machinery
import importlib.util
import pathlib
import re
import shutil
import subprocess

from helpers.harness import Skipped

TOP = pathlib.Path(__file__).resolve().parent.parent.parent
DEFINITIONS = TOP / "docs" / "DEFINITIONS.md"
PROOFS = TOP / "docs" / "PROOFS.md"
FORMATS = TOP / "docs" / "FORMATS.md"
TABLES = TOP / "tools" / "tables"
PROGRAM = "goose"
COMMENTS = {".rt": r"(?m)//.*$", ".antt": r"(?m)--.*$"}
NAMED = r"\bensures\*? (\w+) \{"
MOST_WORDS = 25_000


def loaded(path):
    """A tool of this repository as a module."""
    spec = importlib.util.spec_from_loader(path.name, importlib.machinery.SourceFileLoader(path.name, str(path)))
    module = importlib.util.module_from_spec(spec)
    spec.loader.exec_module(module)
    return module


tables = loaded(TABLES)


class Generated:
    name = "the tables of docs/tables are those of the sources"

    def why_wrong(self, _program):
        ran = subprocess.run([TABLES, "--check"], stdin=subprocess.DEVNULL, stdout=subprocess.PIPE)
        return ran.stdout.decode().splitlines() or ([f"ended with status {ran.returncode}"] if ran.returncode else [])


class Whole:
    """The tables leave nothing out, as seen without the tool: no public word of a definition, and no clause of a call that a
    crate's root names."""

    name = "the tables of docs/tables have each definition and each call"

    def why_wrong(self, _program):
        folder = TOP / "docs" / "tables"
        return [*self.words_left_out((folder / "DEFINITIONS.md").read_text()),
                *self.clauses_left_out((folder / "CLAUSES.md").read_text())]

    def words_left_out(self, told):
        words = set(re.findall(r"`([^`]+)`", told))
        for file in sorted((TOP / "crates").glob("*/specs/**/*.antt")):
            if not {"declared", "contracts"} & set(file.parts) and file.stem != "Lib":
                yield from (f"no row has {it} of {file.relative_to(TOP)}" for it in declared(file.read_text()) if it not in words)

    def clauses_left_out(self, told):
        for crate in tables.crates():
            rows = dict(re.findall(r"(?m)^\| \[`(\w+)`\]\S* (.*)$", part(told, crate)))
            sources = TOP / "crates" / crate / "src"
            lib = sources / "lib.rt"
            named = re.findall(r"(?m)^pub use crate::[\w:]+?::(\w+|\{[^}]*\});", lib.read_text()) if lib.is_file() else []
            code = "\n".join(file.read_text() for file in sources.rglob("*.rt"))
            for name in re.findall(r"\w+", " ".join(named)):
                stated = re.findall(NAMED, "".join(re.findall(rf"(?ms)^pub fn {name}\b(.*?)^\{{", code)))
                yield from (f"no row has the clause {it} of {name}" for it in stated if f"`{it}`" not in rows.get(name, ""))


def declared(source):
    """The public words of a module, at the margin, or one step in under `mutual`. Fields of records are further in."""
    for block in re.split(r"(?m)^(?=\S)", source):
        margin = "  " if re.match(r"(?:\w+ )*mutual\n", block) else ""
        yield from re.findall(rf"(?m)^{margin}(?:\w+ )*pub (?:data |record )?(\S+)(?= :| \(| \{{)", block)


class Short:
    """What is written by hand has at most so many words: without code blocks, without the tables that a tool writes, and
    without the page on what was made faster."""

    name = f"the documents have at most {MOST_WORDS} words"

    def why_wrong(self, _program):
        files = [TOP / "README.md", *sorted(set((TOP / "docs").glob("*.md")) - {TOP / "docs" / "PERF.md"}), TOP / "CONTRIBUTING.md",
                 TOP / "CHANGELOG.md",
                 TOP / "tests" / "README.md", TOP / "bench" / "README.md"]
        counts = {str(file.relative_to(TOP)): words_in(file.read_text()) for file in files}
        total = sum(counts.values())
        return [] if total <= MOST_WORDS else [f"{total} words: {counts}"]


def words_in(text):
    prose = re.sub(r"(?ms)^```.*?^```", "", text)
    return sum(1 for word in prose.split() if re.search(r"\w", word))


class Plain:
    """What users read has none of these words, for which it has others: the documents, the manual page, the examples, what
    errors and messages say, and the help of the program and of the tools. Moment is a name."""

    name = "the words of what users read"
    OTHERS = r"\b([Mm]oments|moment|[Ss]pell\w*|[Ss]tatus numbers?|[Ss]equence numbers?|[Bb]ehind|[Gg]ood frames?|[Rr]ecordings?)\b"
    UNSAID = r"(?m)^(?:ghost| *(?://|ensures|requires)).*$"

    def why_wrong(self, _program):
        documents = [TOP / "README.md", TOP / "docs" / "goose.1", *(TOP / "docs" / f"{it}.md" for it in ("TUTORIAL", "REPLAY", "RECIPES"))]
        examples = [it for it in (TOP / "examples").iterdir() if it.suffix in (".list", ".script", ".md")]
        read = {file.name: file.read_text() for file in (*documents, *examples)}
        # Of these words some are in a table that says what they are.
        read["FORMATS.md"] = re.sub(r"(?ms)^## Words$.*?^(?=## )", "", FORMATS.read_text())
        for tool in (it for it in (TOP / "tools").iterdir() if it.is_file()):
            read[tool.name] = "\n".join(re.findall(r'(?s)\A#!.*?\n"""(.*?)"""', tool.read_text()))
        for crate in tables.crates():
            code = "\n".join(file.read_text() for file in (TOP / "crates" / crate / "src").rglob("*.rt"))
            says = '"(.*?)"' if crate in ("words_core", "goose") else r'#\[error\("(.*?)"\)\]'
            read[crate] = "\n".join(re.findall(says, re.sub(self.UNSAID, "", code)))
        return [f"{name} says {it}" for name, text in read.items() for it in re.findall(self.OTHERS, text)]


class Guided:
    """The reading guide of docs/DEFINITIONS.md names modules that there are, and definitions of theirs."""

    name = "the reading guide of docs/DEFINITIONS.md"

    def why_wrong(self, _program):
        rows = re.findall(r"(?m)^\| `(\w+)` ((?:`\w+`(?:, )?)+) \| (.*?) \|", DEFINITIONS.read_text())
        return [why for row in rows for why in self.why_row_wrong(*row)] or ([] if rows else ["there are no rows"])

    def why_row_wrong(self, crate, named, words):
        modules = dict(tables.modules(crate))
        defined = set()
        for module in re.findall(r"`(\w+)`", named):
            if module in modules:
                defined.update(word for row, _ in tables.definitions(modules[module].read_text()) for word in row)
            else:
                yield f"there is no module {module} in {crate}"
        yield from (f"{crate} {named} does not define {it}" for it in re.findall(r"`(\w+)`", words) if it not in defined)


class Carried:
    """The calls that docs/PROOFS.md names as those that carry a promise have the clauses that it names."""

    name = "the promises of docs/PROOFS.md"

    def why_wrong(self, _program):
        stated = {}
        for crate in tables.crates():
            for file in (TOP / "crates" / crate / "src").rglob("*.rt"):
                for owner, _, call, contract, _ in tables.owned_contracts(file.read_text()):
                    stated.setdefault(call, set()).update(re.findall(NAMED, contract))
        text = part(PROOFS.read_text(), "The promises")
        for name, calls in re.findall(r'"([Ee]ach \w+)" is ((?:`\w+`,?\s)*`\w+`)', text):
            text = text.replace(f" of {name.lower()}", f" of {' '.join(calls.split())}")
        rows = re.findall(r"(?m)^\| .* \| (.*) \|$", text)
        why = [why for row in rows for claim in re.split(r"; |\. ", row) for why in self.why_claim_wrong(claim, stated)]
        return why if rows else ["there are no rows"]

    def why_claim_wrong(self, claim, stated):
        clauses, _, calls = claim.partition(" of ")
        named = set(re.findall(r"`(\w+)`", clauses))
        rooms = {file.stem for file in (TOP / "crates" / "joint_laws" / "src").glob("*.rt")}
        laws = set(re.findall(r"`(?:\w+::)?laws::(?:\w+::)?(\w+)`", claim)) - rooms
        for call in re.findall(r"`(?:\w+::)*(\w+)`", calls):
            if call == "laws" or call in rooms:
                laws |= named
            elif call in stated:
                yield from (f"{call} has no clause {it}" for it in sorted(named - stated[call]))
            elif call not in {*tables.crates(), "contents", "fields"}:
                yield f"there is no call {call}"
        yield from (f"there is no law {it}" for it in sorted(laws) if it not in stated)


class Judged:
    """The functions of which docs/tables/SURVIVORS.md says why no other body meets their contracts are in the sources."""

    name = "the functions that no wrong body can stand for, in docs/tables/SURVIVORS.md"

    def why_wrong(self, _program):
        code = "\n".join(file.read_text() for crate in tables.crates() for file in (TOP / "crates" / crate / "src").rglob("*.rt"))
        rows = re.findall(r"(?m)^\| (.*`.*) \| .* \|$", (TOP / "docs" / "tables" / "SURVIVORS.md").read_text())
        named = re.findall(r"`(?:\w+::)*(\w+)`", " ".join(rows).replace("`laws`", ""))
        return [f"there is no function {it}" for it in named if not re.search(rf"\bfn {it}\b", code)] or ([] if named else ["no row"])


class Refused:
    """Each wrong body that the gate tries says what it does, and names a call of its crate and a clause of that; the table of
    docs/tables has it. The count of the others is what docs/PROOFS.md says."""

    name = "the wrong bodies of docs/PROOFS.md"

    def __init__(self, text):
        self.text = text

    def why_wrong(self, _program):
        table = (TOP / "docs" / "tables" / "WRONG_BODIES.md").read_text().replace("](../../", "](../").splitlines()
        others = len(list((TOP / "crates").glob("*/wrong_bodies/*.edit")))
        why = [] if f"\n{others} more stand in" in self.text else [f"{others} others are not told"]
        for edit in sorted((TOP / "crates").glob("*/must-fail/*.edit")):
            name = str(edit.relative_to(TOP))
            why += [] if sum(f"](../{name})" in row for row in table) == 1 else [f"the table has not one row of {name}"]
            why += [f"{name}: {it}" for it in self.why_edit_wrong(edit)]
        return why

    def why_edit_wrong(self, edit):
        said = re.match(r"# does: .+\n# refused by: (?:(\w+) of )?([\w:]+)\n", edit.read_text())
        if not said:
            yield "it does not begin with '# does: ..' and '# refused by: ..'"
            return
        crate, stated = edit.parent.parent, {}
        for file in (crate / "src").rglob("*.rt"):
            source = file.read_text()
            for call in re.findall(r"\bfn (\w+)", source):
                stated.setdefault(call, set())
            for _, call, contract in tables.contracts(source):
                stated[call].update(re.findall(NAMED, contract))
        clause, call = said.groups()
        clauses = stated.get(call.split("::")[-1])
        if clauses is None:
            yield f"there is no {call} in {crate.name}"
        elif clause and clause not in clauses:
            yield f"{call} has no clause {clause}"


class Forms:
    """The examples of the forms of proofs in CONTRIBUTING.md are in the crates that it names: files, and words."""

    name = "the forms of CONTRIBUTING.md"

    def why_wrong(self, _program):
        forms = (TOP / "CONTRIBUTING.md").read_text().partition("\n| Form | ")[2].partition("\n\n")[0]
        rows = [re.findall(r"`([^`]+)`", row.split(" | ")[-1]) for row in forms.splitlines()[2:]]
        return [why for row in rows for why in self.why_row_wrong(row)] or ([] if rows else ["there are no rows"])

    def why_row_wrong(self, row):
        crate = next(TOP / "crates" / it for it in row if it in tables.crates())
        yield from (f"{crate.name} has no {it}" for it in row if "/" in it and not (crate / it).exists())
        code = "\n".join(file.read_text() for file in crate.rglob("*") if file.suffix in COMMENTS)
        yield from (f"{crate.name} has no {it}" for it in {*row} - {crate.name} if "/" not in it and not re.search(rf"\b{it}\b", code))


class Exercised:
    """The exercises of CONTRIBUTING.md name files and words that there are, but for what they add."""

    name = "the exercises of CONTRIBUTING.md"
    ADDED = re.compile(r"[Ee]rrors|LengthShort|entries=")
    PLACES = ("", "crates", "docs", "tests", "crates/{}", "crates/{}/specs", "crates/{}/proofs", "crates/{}/src", "tests/oracles", "tests/themes")

    def why_wrong(self, _program):
        text = part((TOP / "CONTRIBUTING.md").read_text(), "Four exercises")
        files = [file for where in ("*/src/**/*.rt", "*/specs/**/*.antt", "*/proofs/**/*.antt") for file in (TOP / "crates").glob(where)]
        code = "\n".join(file.read_text() for file in [*files, *(TOP / "tests").glob("*/*.py")])
        crate, why = "", [] if text else ["there are none"]
        for named in re.findall(r"`([^`\n]+)`", text):
            crate = named if (TOP / "crates" / named).is_dir() and "/" not in named else crate
            if self.ADDED.search(named) or named == crate:
                continue
            is_path = "/" in named or re.search(r"\.(antt|rt|py|md|1)$", named)
            if is_path and re.fullmatch(r"[\w/.]+", named):
                found = any((TOP / it.format(crate) / named).exists() for it in self.PLACES)
                why += [] if found else [f"there is no {named} of {crate}"]
            elif re.fullmatch(r"[A-Za-z]\w*(_\w+|[a-z][A-Z]\w*)", named):
                why += [] if re.search(rf"\b{named}\b", code) else [f"nothing is called {named}"]
        return why


class StandsOn:
    """A crate's line in crates.txt names the crates that its sources use, and no others."""

    def __init__(self, crate, named, crates):
        self.name, self.crate, self.named, self.crates = f"the line of {crate} in crates.txt", crate, named, crates

    def why_wrong(self, _program):
        files = [file for folder in ("src", "specs", "proofs") for file in (TOP / "crates" / self.crate / folder).rglob("*")
                 if file.suffix in COMMENTS]
        code = "\n".join(re.sub(COMMENTS[file.suffix], "", file.read_text()) for file in files)
        used = {it for it in self.crates - {self.crate} if self.uses(it, code)}
        return ([f"{it} is used and not named" for it in sorted(used - self.named)]
                + [f"{it} is named and not used" for it in sorted(self.named - used)])

    @staticmethod
    def uses(crate, code):
        """Whether code names a crate: by a path that begins with it, unless that is a module of another crate, taken by its name."""
        return (re.search(rf"(?:Rattle\.|(?<![\w:.])){crate}(?:::|\.[A-Za-z])", code)
                and not re.search(rf"\buse \w+::(?:{crate};|\{{[^}}]*\b{crate}\b)", code))


class Linked:
    """Each relative link of a document leads to a file, and to a heading in it."""

    def __init__(self, document):
        self.document, self.name = document, f"the links of {document.relative_to(TOP)}"

    def why_wrong(self, _program):
        links = re.findall(r"\]\((?!https?:)([^)#\s]*)(?:#([^)]*))?\)", self.document.read_text())
        why = []
        for path, anchor in links:
            file = (self.document.parent / path).resolve() if path else self.document
            if not file.exists():
                why += [f"there is no {path}"]
            elif anchor and anchor not in anchors(file):
                why += [f"{path} has no heading #{anchor}"]
        return why


def anchors(file):
    """The headings of a document, as links name them."""
    headings = re.findall(r"(?m)^#+ (.*)$", file.read_text())
    return {re.sub(r"[^\w\- ]", "", heading.lower()).replace(" ", "-") for heading in headings}


class Glossary:
    """The glossary of docs/FORMATS.md has each word of a shown line, and names fields that Wireshark has."""

    name = "the glossary of docs/FORMATS.md"

    def why_wrong(self, _program):
        text = FORMATS.read_text()
        rows = re.findall(r"(?m)^\| (.*?) \| ", text.partition("\n### Glossary\n")[2].split("\nOctets are")[0])
        shown = set(re.findall(r"(\w+)=\.\.", text))
        words = set(re.findall(r"`(\w+)`", " ".join(rows)))
        why = [f"no row has {it}" for it in sorted(shown - words)] + [f"no line has {it}" for it in sorted(words - shown)]
        fields = wireshark_fields()
        if not why and not fields:
            raise Skipped("there is no tshark: run tests/get_tools")
        named = re.findall(r"`((?:goose|sv|eth|vlan)\.\w+)`", text)
        return why + [f"tshark has no field {it}" for it in named if fields and it not in fields]


def wireshark_fields():
    """The names of Wireshark's fields, where there is tshark."""
    if not shutil.which("tshark"):
        return set()
    told = subprocess.run(["tshark", "-G", "fields"], stdout=subprocess.PIPE, stderr=subprocess.DEVNULL).stdout.decode()
    return {line.split("\t")[2] for line in told.splitlines() if line.startswith("F\t")}


class Kit:
    """README.md and docs/PROOFS.md name the kit by the sum of its logic, which machines with another version of the kit can have too.
    `rt version` says that sum."""

    name = "the kit of README.md and docs/PROOFS.md"

    def why_wrong(self, _program):
        texts = {path.name: path.read_text() for path in (TOP / "README.md", PROOFS)}
        sums = {name: re.findall(r"logic is `([0-9a-f]{16})`", text) for name, text in texts.items()}
        why = [f"{name} names a version of the kit" for name, text in texts.items() if re.search(r"rattle-kit-\d", text)]
        why += [] if sums["README.md"] == sums["PROOFS.md"] and len(sums["README.md"]) == 1 else [f"other sums: {sums}"]
        rt = shutil.which("rt") or shutil.which("/opt/rattle/bin/rt")
        if not why and not rt:
            raise Skipped("there is no rt")
        told = subprocess.run([rt, "version"], stdout=subprocess.PIPE).stdout.decode() if rt else ""
        return why + [f"rt version says {told!r}" for it in sums["README.md"] if rt and f"logic {it}\n" not in told]


class Pictured:
    """Each crate of the picture has its words, few enough to stand in its box."""

    name = "the words of docs/tables/crates.svg"
    MOST, LONGEST = 5, 29

    def why_wrong(self, _program):
        words = dict(tables.rows_of("crate_words.txt"))
        uses = tables.rows_of_crates()
        why = [f"{it} has no words in docs/tables/crate_words.txt" for it in uses if not tables.is_for_tests(it) and it not in words]
        why += [f"docs/tables/crate_words.txt has {it}, which is no crate" for it in words if it not in uses]
        return why + [f"{text!r} is too long for the box of {it}" for it, text in words.items()
                      if len(text) > self.LONGEST or len(re.findall(r"\w+", text)) > self.MOST]


def part(text, heading):
    """The part of a document under a heading of the second level."""
    return next((it for it in re.split(r"(?m)^## ", text)[1:] if it.split("\n")[0].strip() == heading), "")


def cases():
    yield from (Kit(), Glossary(), Generated(), Whole(), Pictured(), Short(), Plain(), Guided(), Carried(), Forms(), Exercised())
    folders = [TOP, TOP / "docs", TOP / "docs" / "tables", TOP / "examples", TOP / "tests", TOP / "bench",
               *(TOP / "crates").glob("*")]
    for folder in folders:
        for document in sorted(folder.glob("*.md")):
            yield Linked(document)
    listed = [line for line in (TOP / "crates.txt").read_text().splitlines() if line.strip() and not line.startswith("#")]
    lines = {line.split(":")[0].split()[0]: set(line.partition(":")[2].split()) for line in listed}
    # No crate stands on the program, and its name is that of a field of frames.
    others = set(lines).union(*lines.values()) - {PROGRAM}
    for crate, named in lines.items():
        yield StandsOn(crate, named, others)
    yield Judged()
    yield Refused(part(PROOFS.read_text(), "Wrong bodies"))
