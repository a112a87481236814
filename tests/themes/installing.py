"""tools/install and tools/package: what is installed runs from where it is, and is removed without a trace."""
import gzip
import hashlib
import os
import pathlib
import re
import shutil
import subprocess
import tarfile
import tempfile

from helpers.asked_tools import TOOLS, TOP
from helpers.harness import SECONDS, Skipped
from oracles import reference
from themes.manual import examples


def ran(words, **how):
    return subprocess.run(words, stdin=subprocess.DEVNULL, stdout=subprocess.PIPE, stderr=subprocess.PIPE, timeout=SECONDS, **how)


def binary(program):
    """The file of the program."""
    file = shutil.which(program[0])
    if len(program) > 1 or not file or b"\x7fELF" != pathlib.Path(file).read_bytes()[:4]:
        raise Skipped("the program is no file that could be installed")
    return file


def files(top):
    """The files and links under a folder."""
    return sorted(str(it.relative_to(top)) for it in top.rglob("*") if it.is_symlink() or not it.is_dir())


def installed_wrong(prefix):
    """What is not as it should be under a prefix: the manual page's examples, a tool, the completion of commands, the links of
    documents."""
    documents, path = prefix / "share" / "doc" / "goose", f"{prefix}/bin:/usr/bin:/bin"
    for command in examples():
        example = ran(["bash", "-c", command], cwd=documents, env={**os.environ, "PATH": path})
        if example.returncode > 1 or example.stderr or not example.stdout:
            yield f"{command}: {example!r}"
    asked = ran([documents / "tools" / "draw_recording", "examples/repeated_frames.list", "0001,G,D,,1,1"], cwd=documents,
                env={**os.environ, "PATH": "/usr/bin:/bin", "GOOSE": ""})
    if asked.returncode or asked.stderr or not asked.stdout.startswith(b"<svg "):
        yield f"draw_recording: {asked!r}"
    for tool in ("goose-report", "goose-to-csv", "goose-scl-blocks"):
        asked = ran([prefix / "bin" / tool, "--help"], cwd=documents, env={**os.environ, "PATH": path})
        if asked.returncode or not asked.stdout.startswith(f"usage: {tool} ".encode()):
            yield f"{tool}: {asked!r}"
    for words, wanted in ((["goose", ""], {*reference.HELP, "--help", "--version"}), (["goose", "re"], {"replay", "rewrite"}),
                          (["goose", "watch", "--p"], {"--period"}), (["goose", "losses", "--p"], {"--period"})):
        completed = ran(["bash", "-c", COMPLETE, "bash", str(prefix / "share/bash-completion/completions/goose"), *words],
                        env={**os.environ, "PATH": path})
        if set(completed.stdout.decode().split()) != wanted:
            yield f"completion of {words}: {completed!r}"
    told = (documents / "PROVED").read_text()
    kit = ran([shutil.which("rt") or "/opt/rattle/bin/rt", "version"]).stdout.decode() if shutil.which("rt") else ""
    if kit not in told:
        yield f"PROVED does not say {kit!r}"
    digest = hashlib.sha256((prefix / "bin" / "goose").read_bytes()).hexdigest()
    for name in ("commit", "toolchain", "gate", "built", "program"):
        if not re.search(rf"(?m)^{name} +\S", told):
            yield f"PROVED does not say the {name}"
    if digest not in told:
        yield "PROVED has another SHA-256 than the program"
    if not (prefix / "share/man/man1/goose.1").is_file():
        yield "there is no manual page"
    for document in documents.rglob("*.md"):
        links = re.findall(r"\]\((?!https?:)([^)#\s]+)", document.read_text())
        yield from (f"{document.name} has a link to {it}, which is not installed" for it in links if not (document.parent / it).exists())
    if "tests (tests/README.md)" not in (documents / "README.md").read_text():
        yield "README.md does not say where the tests are in the source tree"


# Completes the last of some words.
COMPLETE = '. "$1"; shift; COMP_WORDS=("$@"); COMP_CWORD=$(($# - 1)); _goose; printf "%s\\n" "${COMPREPLY[@]}"'


class Installed:
    name = "an installation, and its removal"

    def why_wrong(self, program):
        file = binary(program)
        with tempfile.TemporaryDirectory(prefix="with a blank ") as folder:
            return list(self.why_prefix_wrong(file, pathlib.Path(folder)))

    @staticmethod
    def why_prefix_wrong(file, prefix):
        (prefix / "bin").mkdir()
        (prefix / "bin" / "other").write_text("")
        install = [TOOLS / "install", "--program", file, prefix]
        made = ran(install)
        if made.returncode or b"installed: " not in made.stderr:
            yield f"{made!r}"
            return
        yield from installed_wrong(prefix)
        listed = prefix / "lib/goose/installed"
        (prefix / "bin" / "former").write_text("")
        listed.write_text(listed.read_text() + "bin/former\n")
        for _ in ("over a former installation", "over itself"):
            again = ran(install)
            if again.returncode or (prefix / "bin/former").exists() or listed.read_text().count("\n") != len(files(prefix)) - 2:
                yield f"installed again: {again!r}"
        removed = ran([TOOLS / "install", "--remove", prefix])
        if removed.returncode or files(prefix) != ["bin/other"] or (prefix / "lib/goose").exists() or (prefix / "share/doc/goose").exists():
            yield f"removal left {files(prefix)}: {removed!r}"
        again = ran([TOOLS / "install", "--remove", prefix])
        if again.returncode != 1 or b"nothing was installed" not in again.stderr:
            yield f"removed twice: {again!r}"


class Completed:
    name = "completion in a checkout asks the built program, and builds none"

    def why_wrong(self, _program):
        with tempfile.TemporaryDirectory() as folder:
            top = pathlib.Path(folder)
            for name, does in (("goose", "touch built"), ("tools/build", ""), ("crates/goose/out/goose", "printf 'Commands:\\n  show  frames\\n'")):
                (top / name).parent.mkdir(parents=True, exist_ok=True)
                (top / name).write_text(f"#!/bin/sh\n{does}\n")
                (top / name).chmod(0o755)
            completed = ran(["bash", "-c", COMPLETE, "bash", TOOLS / "completion.bash", "./goose", ""], cwd=top)
            got = (set(completed.stdout.decode().split()), (top / "built").exists())
        return [] if got == ({"show", "--help", "--version"}, False) else [f"{got}: {completed!r}"]


class Kept:
    name = "a goose of somebody else is not written over"

    def why_wrong(self, program):
        file = binary(program)
        with tempfile.TemporaryDirectory() as folder:
            other = pathlib.Path(folder) / "bin" / "goose"
            other.parent.mkdir()
            other.write_text("another")
            made = ran([TOOLS / "install", "--program", file, folder])
            left = files(pathlib.Path(folder))
            is_well = made.returncode == 1 and left == ["bin/goose"] and other.read_text() == "another"
            return [] if is_well else [f"{made!r}, and there is {left}"]


class KeptLink:
    """A link that leads nowhere, and a file where the link to the tools comes, are somebody else's too."""

    name = "links and files of somebody else are not written over"

    def why_wrong(self, program):
        file = binary(program)
        for name in ("bin/goose", "share/doc/goose/tools", "share/doc/goose/PROVED"):
            with tempfile.TemporaryDirectory() as folder:
                other = pathlib.Path(folder) / name
                other.parent.mkdir(parents=True)
                other.symlink_to("nowhere")
                made = ran([TOOLS / "install", "--program", file, folder])
                if made.returncode != 1 or files(pathlib.Path(folder)) != [name] or not other.is_symlink():
                    return [f"{name}: {made!r}, and there is {files(pathlib.Path(folder))}"]
        return []


class Cut:
    name = "an installation that is cut short, in a folder that is named from another one"

    def why_wrong(self, program):
        file = binary(program)
        with tempfile.TemporaryDirectory() as folder:
            return list(self.why_folder_wrong(file, pathlib.Path(folder)))

    @staticmethod
    def why_folder_wrong(file, folder):
        (folder / "bin").mkdir()
        (folder / "bin" / "python3").write_text("#!/bin/sh\nexit 9\n")
        (folder / "bin" / "python3").chmod(0o755)
        install, prefix = [TOOLS / "install", "--program", file, "here"], folder / "here"
        cut = ran(install, cwd=folder, env={**os.environ, "PATH": f"{folder}/bin:{os.environ['PATH']}"})
        if cut.returncode != 9 or not (prefix / "bin/goose").exists():
            yield f"cut short: {cut!r}, and there is {files(folder)}"
        again = ran(install, cwd=folder)
        if again.returncode:
            yield f"repeated: {again!r}"
        ran([TOOLS / "install", "--remove", "here"], cwd=folder)
        ran(install, cwd=folder, env={**os.environ, "PATH": f"{folder}/bin:{os.environ['PATH']}"})
        removed = ran([TOOLS / "install", "--remove", "here"], cwd=folder)
        if removed.returncode or files(prefix):
            yield f"removal left {files(prefix)}: {removed!r}"


class Packed:
    name = "a package and an archive"

    def why_wrong(self, program):
        file = binary(program)
        if not shutil.which("git") or ran(["git", "-C", TOP, "rev-parse"]).returncode:
            raise Skipped("this is no checkout of git")
        with tempfile.TemporaryDirectory() as folder:
            return list(self.why_files_wrong(file, pathlib.Path(folder)))

    def why_files_wrong(self, file, folder):
        first = self.packed(file, folder / "first", 0o022, "UTC")
        again = self.packed(file, folder / "again", 0o077, "Pacific/Kiritimati")
        if [it.name for it in first] != [it.name for it in again] or not first:
            yield f"{first}, and then {again}"
        yield from (f"{one.name} has other octets when it is made again" for one, other in zip(first, again)
                    if one.read_bytes() != other.read_bytes())
        for made in first:
            yield from self.why_deb_wrong(made, folder) if made.suffix == ".deb" else self.why_archive_wrong(made, folder)

    @staticmethod
    def packed(file, folder, mask, zone):
        made = ran([TOOLS / "package", "--program", file, folder], env={**os.environ, "TZ": zone}, preexec_fn=lambda: os.umask(mask))
        if made.returncode or (b".deb\n" in made.stdout) != bool(shutil.which("dpkg-deb")):
            return []
        return [pathlib.Path(it) for it in made.stdout.decode().splitlines()]

    @staticmethod
    def why_archive_wrong(archive, folder):
        with gzip.open(archive) as octets, tarfile.open(fileobj=octets) as tar:
            tar.extractall(folder / "unpacked")
        (prefix,) = (folder / "unpacked").iterdir()
        yield from installed_wrong(prefix)

    @staticmethod
    def why_deb_wrong(package, folder):
        root = folder / "root"
        if os.geteuid():
            # dpkg installs for root alone: others unpack what it would install.
            ran(["dpkg-deb", "-x", package, root])
            yield from installed_wrong(root / "usr")
            return
        (root / "var/lib/dpkg/updates").mkdir(parents=True)
        (root / "var/lib/dpkg/info").mkdir()
        (root / "var/lib/dpkg/status").write_text("")
        dpkg = ["dpkg", f"--root={root}", "--force-depends", "--log=/dev/null"]
        made = ran([*dpkg, "--install", package])
        if made.returncode:
            yield f"{made!r}"
            return
        yield from installed_wrong(root / "usr")
        if "No licence is granted yet" not in (root / "usr/share/doc/goose/copyright").read_text():
            yield "the package says nothing of a licence"
        removed = ran([*dpkg, "--purge", "goose"])
        left = [it for it in files(root) if not it.startswith("var/")]
        if removed.returncode or left:
            yield f"removal left {left}: {removed!r}"


class Unchanged:
    name = "what the tutorial makes in a checkout is no change in PROVED, and a source is one"

    def why_wrong(self, program):
        if not shutil.which("git"):
            raise Skipped("there is no git")
        with tempfile.TemporaryDirectory() as folder:
            return list(self.why_commit_wrong(program, pathlib.Path(folder)))

    @staticmethod
    def why_commit_wrong(program, top):
        (top / "tools").mkdir()
        shutil.copy(TOOLS / "what_was_proved", top / "tools")
        shutil.copy(TOP / ".gitignore", top)
        for words in (["init", "-q"], ["add", "."], ["-c", "user.name=a", "-c", "user.email=a@b", "commit", "-q", "-m", "first"]):
            ran(["git", "-C", top, *words])
        for files, is_changed in ((["bays.list", "bays.pcap", "bays.blocks", "bays.replay", "bays.svg"], False), (["crates.txt"], True)):
            for name in files:
                (top / name).write_text("")
            told = ran([top / "tools" / "what_was_proved", shutil.which(program[0])])
            commit = re.search(rb"(?m)^commit +[0-9a-f]{40}(, with changes that are in no commit)?$", told.stdout)
            if not commit or bool(commit[1]) != is_changed:
                yield f"{files}: {told!r}"


def cases():
    yield Unchanged()
    yield Installed()
    yield Completed()
    yield Kept()
    yield KeptLink()
    yield Cut()
    yield Packed()
