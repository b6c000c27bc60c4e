#!/usr/bin/env python3
"""Pastes each command of the docs into a fresh clone, and compares what it prints.

    tools/check_docs.py [DOC..]

Without names these are README.md, examples/README.md, docs/lab.md and docs/tools.md. A block of ```sh
holds commands. The whole document is one session of bash, which begins at the top of the clone. Each
command has to end by the status 0, or by that which its comment names, as `# .. status 3`. A block
without a language right after it holds what these commands print; `..` there stands for any text,
and as a line of its own for any lines.

The clone has what git knows of this folder, as it stands here, and the program that was built. When
all is run, git may find nothing new in it that .gitignore doesn't know. Files that a document links
to have to be there. A picture that the commands draw in the user's home has to be that of the same
name in docs/; --take-pictures copies it there. A few commands are left out, and a line says why.

What needs a program that isn't there (the built one, git, make, a compiler for RISC-V) is skipped
with a line, and nothing fails.
"""
import glob
import os
import re
import shutil
import subprocess
import tempfile
import time

from wwt_tool import ToolError, add_program, call, parser_of, program_of

TOP = os.path.dirname(os.path.dirname(os.path.abspath(__file__)))
DOCS = ("README.md", "examples/README.md", "docs/lab.md", "docs/tools.md")
NEEDED = ("bash", "git", "make", "cc", "riscv64-unknown-elf-gcc")
LEFT_OUT = (
    (re.compile(r"^\.ci/run"), "it is what calls this"),
    (re.compile(r"\brt (try|run|ci)\b"), "it builds the program, which is there"),
    (re.compile(r"^apt-get"), "it installs"),
    (re.compile(r"^(dask-|/usr/bin/python3 .*--dask)"), "it wants a cluster"),
)
STATUS = re.compile(r"#.*\bstatus (\d+)")
LINK = re.compile(r"\]\(([^)#:]+)\)")
SECONDS = 300  # for a whole document


class Block:
    """Commands, each with the line that it stands in, and what they have to print, if that is told."""

    def __init__(self, line):
        self.line, self.commands, self.wanted = line, [], None

    def add(self, line, text):
        """Takes a line; a command goes on after a backslash."""
        if self.commands and self.commands[-1][1].endswith("\\"):
            number, begun = self.commands.pop()
            self.commands.append((number, begun + "\n" + text))
        elif text.strip() and not text.lstrip().startswith("#"):
            self.commands.append((line, text))


def blocks_of(text):
    """The blocks of commands of a document."""
    found, inside, last = [], None, None
    for number, line in enumerate(text.splitlines(), 1):
        if inside is None and line.startswith("```"):
            if line == "```sh":
                inside = last = Block(number)
                found.append(last)
            else:
                inside = []
                if line == "```" and last is not None:
                    last.wanted = inside
                last = None
        elif line == "```":
            inside = None
        elif isinstance(inside, Block):
            inside.add(number, line)
        elif inside is not None:
            inside.append(line)
        elif line.strip():
            last = None
    return found


def why_left_out(command):
    return next((why for sign, why in LEFT_OUT if sign.search(command)), None)


def script_of(blocks, room):
    """A script of bash that runs the commands, each with its output and status in files."""
    lines = ["exec </dev/null"]
    for block in blocks:
        for line, command in block.commands:
            if not why_left_out(command):
                lines += ["{", command, f"}} >{room}/{line}.out 2>&1", f"echo $? >{room}/{line}.status"]
    return "\n".join(lines) + "\n"


def pattern_of(lines):
    """What a told output matches."""
    parts = []
    for line in lines:
        if line == "..":
            parts.append(r"(?:.*\n)*?")
        else:
            parts.append(re.escape(line.rstrip()).replace(r"\.\.", ".*") + r"[ ]*\n")
    return re.compile("".join(parts))


def read(path):
    with open(path, encoding="utf-8", errors="replace") as file:
        return file.read()


class Session:
    """A document that was pasted: what went otherwise than it says."""

    def __init__(self, name, clone, room):
        self.name, self.clone, self.room, self.faults = name, clone, room, []
        self.pictures = {}
        self.text = read(os.path.join(clone, name))
        self.blocks = blocks_of(self.text)

    def run(self):
        room = tempfile.mkdtemp(dir=self.room)
        home = tempfile.mkdtemp(dir=self.room)
        script = os.path.join(room, "script")
        with open(script, "w", encoding="utf-8") as file:
            file.write(script_of(self.blocks, room))
        environment = {**os.environ, "HOME": home}
        environment.pop("WWT", None)
        try:
            subprocess.run(["bash", script], cwd=self.clone, env=environment, timeout=SECONDS,
                           check=False)
        except subprocess.TimeoutExpired:
            self.faults.append(f"{self.name}: not through after {SECONDS} seconds")
        for block in self.blocks:
            self.compare(block, room)
        self.follow_links()
        self.pictures = {os.path.basename(path): read(path) for path in
                         glob.glob(os.path.join(home, "**/*.svg"), recursive=True)}

    def compare(self, block, room):
        printed = ""
        for line, command in block.commands:
            if why_left_out(command):
                continue
            try:
                status = read(os.path.join(room, f"{line}.status")).strip()
            except FileNotFoundError:
                self.faults.append(f"{self.name}, line {line}: the session ended before it")
                continue
            out = read(os.path.join(room, f"{line}.out"))
            wanted = STATUS.search(command)
            if status != (wanted[1] if wanted else "0"):
                self.faults.append(f"{self.name}, line {line}: status {status} of: {command}\n{out}")
            printed += out
        if block.wanted is not None and not pattern_of(block.wanted).fullmatch(printed):
            self.faults.append(f"{self.name}, line {block.line}: it prints\n{printed}")

    def follow_links(self):
        folder = os.path.join(self.clone, os.path.dirname(self.name))
        for link in LINK.findall(self.text):
            if not os.path.exists(os.path.join(folder, link)):
                self.faults.append(f"{self.name}: there is no {link}")

    def look_at_pictures(self, take):
        """Compares the pictures that were drawn with those of docs/, or takes them over."""
        for name, drawn in self.pictures.items():
            path = os.path.join(TOP, "docs", name)
            if not is_shown(name):
                continue
            if take:
                with open(path, "w", encoding="utf-8") as file:
                    file.write(drawn)
            elif read(path) != drawn:
                self.faults.append(f"{self.name}: docs/{name} isn't what the commands draw")

    def sentence(self):
        commands = [command for block in self.blocks for _, command in block.commands]
        left = [command for command in commands if why_left_out(command)]
        outputs = sum(block.wanted is not None for block in self.blocks)
        return (f"{self.name}: {len(commands) - len(left)} commands and {outputs} outputs, "
                + (f"{len(self.faults)} faults" if self.faults else "as told"))

    def left_out(self):
        return {(command.split("\n")[0], why_left_out(command))
                for block in self.blocks for _, command in block.commands if why_left_out(command)}


def is_shown(name):
    """Whether a document in docs/ shows a picture of this name."""
    return any(f"]({name})" in read(path) for path in glob.glob(os.path.join(TOP, "docs/*.md")))


def git(folder, *words):
    return subprocess.run(["git", *words], cwd=folder, capture_output=True, text=True,
                          check=True).stdout


def make_clone(clone, program):
    """What git knows of this folder, as it stands here, with the built program."""
    for name in filter(None, git(TOP, "ls-files", "-z").split("\0")):
        source, to = os.path.join(TOP, name), os.path.join(clone, name)
        if os.path.lexists(source):
            os.makedirs(os.path.dirname(to), exist_ok=True)
            shutil.copy2(source, to, follow_symlinks=False)
    git(clone, "init", "-q")
    git(clone, "add", "-A", "-f")
    os.makedirs(os.path.join(clone, "crates/wwt/out"), exist_ok=True)
    shutil.copy2(program, os.path.join(clone, "crates/wwt/out/wwt"))


def left_behind(clone):
    """Files that the commands changed or made and .gitignore doesn't know."""
    told = git(clone, "status", "--porcelain", "--untracked-files=all").splitlines()
    return [f"the commands leave {line[3:]} behind, and .gitignore doesn't know it"
            if line.startswith("??") else f"the commands change {line[3:]}"
            for line in told if line[:2] != "A "]


def missing(path):
    """What is needed and isn't there."""
    try:
        program_of(path)
    except ToolError as error:
        return str(error)
    lack = next((f"{name} isn't installed" for name in NEEDED if not shutil.which(name)), None)
    if lack:
        return lack
    try:
        git(TOP, "ls-files", "README.md")
    except subprocess.CalledProcessError as error:
        return f"git doesn't know this folder: {error.stderr.strip()}"
    return None


def main():
    parser = parser_of(__doc__)
    parser.add_argument("docs", nargs="*", metavar="DOC", help="a document, from the top")
    parser.add_argument("--take-pictures", action="store_true", help="copy what was drawn to docs/")
    add_program(parser)
    words = parser.parse_args()
    lack = missing(words.wwt)
    if lack:
        print(f"docs: skipped, {lack}")
        return 0
    begun, faults, left = time.monotonic(), [], set()
    with tempfile.TemporaryDirectory() as room:
        clone = os.path.join(room, "wwt")
        os.mkdir(clone)
        make_clone(clone, program_of(words.wwt))
        for name in words.docs or DOCS:
            session = Session(name, clone, room)
            session.run()
            session.look_at_pictures(words.take_pictures)
            print(session.sentence(), flush=True)
            faults += session.faults
            left |= session.left_out()
        faults += left_behind(clone)
    for command, why in sorted(left):
        print(f"left out, since {why}: {command[:60]}")
    for fault in faults:
        print(fault)
    print(f"docs: {len(faults)} faults, {time.monotonic() - begun:.0f} seconds")
    return 1 if faults else 0


if __name__ == "__main__":
    call(main)
