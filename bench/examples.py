#!/usr/bin/env python3
"""Whether the examples of README.md and docs/ do what stands there: each fenced command is run as it stands, with the program that was built, and what it prints is compared.

What a fence is stands in a comment right above it, which a reader of the page doesn't see:
- `<!-- run -->`: a command of the shell, run at the top of the repository (a copy of it, so that nothing here is written). `rt run -- WORDS` and `rt try --data NAME=FILE -- WORDS` are the built
  program with these words there, and `8000` is a port that is free. A second comment `java` (`<!-- run, java -->`) says that it needs a JDK: where there is none, it is left out, and told.
- `<!-- two terminals -->`: two commands, a line each. The first is begun, and the second once the first listens; the output is the second's, which has to end with status 0. Then the first is ended.
- `<!-- prints -->`: what the command above it prints, to the letter. A line `..` stands for any lines; an id in a fence of an example with a JVM for any id, and a list for any list.
- `<!-- file NAME -->`: what follows lies in a file of that name, beside the copy's README.md. `<!-- file NAME, java -->`: a class that is compiled.
- `<!-- is FILE -->`: what follows is that file of the repository, but for white space.
- `<!-- in FOLDER -->`: this code stands in a source file below that folder, where it has contracts, too.
- `<!-- form -->`: no example.
A fence without such a comment fails, and so does a command whose output stands nowhere.

    bench/examples.py [--gate LINE] [PROGRAM]

PROGRAM is crates/jdwp/out/jdwp where none is given: the gate builds it, and so does `rt run` in crates/jdwp. The last line is `N passed, M failed`; LINE is the gate's own, whose numbers are added.
"""

import glob
import os
import re
import shutil
import socket
import subprocess
import sys
import tempfile
import time

ROOT = os.path.dirname(os.path.dirname(os.path.abspath(__file__)))
PAGES = ["README.md", *sorted(os.path.relpath(it, ROOT) for it in glob.glob(f"{ROOT}/docs/*.md"))]
FENCE = re.compile(r"(?:^<!-- (?P<role>[^\n]*?) -->\n)?^```(?P<kind>\w*)\n(?P<text>.*?)^```$", re.M | re.S)
SECONDS = 60
# `rt` of an example: what it runs is the program that was built
RT = """#!/bin/sh
if [ "$1" = run ]; then shift 2; exec "{program}" "$@"; fi
room=$(mktemp -d) && shift
while [ "$1" = --data ]; do cp "${{2#*=}}" "$room/${{2%%=*}}"; shift 2; done
shift && cd "$room" && "{program}" "$@"
"""


class Wrong(Exception):
    """An example that does not do what stands there."""


def free_port():
    with socket.socket() as it:
        it.bind(("127.0.0.1", 0))
        return it.getsockname()[1]


def is_listening(port):
    """Whether somebody listens at a port of this machine: no connection is made, which would be a session."""
    for table in ("/proc/net/tcp", "/proc/net/tcp6"):
        if os.path.exists(table):
            with open(table, encoding="ascii") as lines:
                for line in list(lines)[1:]:
                    _, at, _, state, *_ = line.split()
                    if state == "0A" and int(at.rsplit(":", 1)[1], 16) == port:
                        return True
    return False


def fences():
    """Each fence of each page: the page, the line, its role, its text."""
    for page in PAGES:
        with open(os.path.join(ROOT, page), encoding="utf-8") as it:
            text = it.read()
        found = list(FENCE.finditer(text))
        if 2 * len(found) != len(re.findall(r"^```", text, re.M)):
            raise Wrong(f"{page}: a fence that is not closed, or not at the beginning of a line")
        for it in found:
            yield page, text.count("\n", 0, it.start("text")), it["role"], it["text"]


class Room:
    """A copy of what examples read, where they run."""

    def __init__(self, program):
        self.at = tempfile.mkdtemp(prefix="examples-")
        for name in ("examples", "README.md"):
            (shutil.copytree if os.path.isdir(f"{ROOT}/{name}") else shutil.copyfile)(f"{ROOT}/{name}", f"{self.at}/{name}")
        os.makedirs(f"{self.at}/crates/jdwp/out")
        os.makedirs(f"{self.at}/bin")
        shutil.copy(program, f"{self.at}/crates/jdwp/out/jdwp")
        os.chmod(f"{self.at}/crates/jdwp/out/jdwp", 0o755)
        with open(f"{self.at}/bin/rt", "w", encoding="ascii") as it:
            it.write(RT.format(program=f"{self.at}/crates/jdwp/out/jdwp"))
        os.chmod(f"{self.at}/bin/rt", 0o755)
        self.environment = {**os.environ, "PATH": f"{self.at}/bin:{os.environ['PATH']}", "LC_ALL": "C"}

    def begin(self, command, **more):
        return subprocess.Popen(["sh", "-c", command], cwd=self.at, env=self.environment, stdin=subprocess.DEVNULL, stdout=subprocess.PIPE, text=True, start_new_session=True, **more)

    def run(self, command):
        """What a command prints, of which the last has to end with status 0."""
        ran = self.begin(command)
        try:
            said, _ = ran.communicate(timeout=SECONDS)
        except subprocess.TimeoutExpired as cause:
            end(ran)
            raise Wrong(f"it did not end within {SECONDS} seconds") from cause
        if ran.returncode != 0:
            raise Wrong(f"it ended with status {ran.returncode} and printed\n{said}")
        return said

    def run_two(self, text):
        """What the second of two commands prints, while the first one serves a port."""
        first, second = text.strip().splitlines()
        port = free_port()
        first, second = (it.replace("8000", str(port)) for it in (first, second))
        serving = self.begin(first)
        try:
            until = time.monotonic() + SECONDS
            while not is_listening(port):
                if serving.poll() is not None or time.monotonic() > until:
                    raise Wrong("the first of both does not listen")
                time.sleep(0.02)
            return self.run(second)
        finally:
            end(serving)

    def write(self, name, text):
        os.makedirs(os.path.dirname(f"{self.at}/{name}") or self.at, exist_ok=True)
        with open(f"{self.at}/{name}", "w", encoding="utf-8") as it:
            it.write(text)
        if name.endswith(".java") and shutil.which("javac"):
            self.run(f"javac {name}")


def end(ran):
    """Ends a command and all that it began."""
    try:
        os.killpg(ran.pid, 9)
    except ProcessLookupError:
        pass
    ran.wait()


def compare(said, wanted, is_java):
    """Fails where what was said is not what stands there."""
    parts = []
    for line in wanted.splitlines():
        if line.strip() == "..":
            parts.append(r"(?:.*\n)*?")
            continue
        line = re.escape(line)
        if is_java:
            line = re.sub(r"\\\[(?:\\#\d+(?:,\\ )?)+\\\]", lambda _: r"\[[^\]]*\]", line)
            line = re.sub(r"\\#\d+", lambda _: r"#\\d+".replace("\\\\", "\\"), line)
            line = re.sub(r"^thread\\ \d+", lambda _: r"thread \d+", line)
        parts.append(line + r"\n")
    if not re.fullmatch("".join(parts), said):
        raise Wrong(f"it printed\n{said}where the page has\n{wanted}")


def without_clauses(text):
    """The text of a source file without contracts: each `requires` and `ensures` with what stands in its braces."""
    kept, at = [], 0
    for it in re.finditer(r"\b(?:requires|ensures)\*?\s*\w*\s*\{", text):
        if it.start() < at:
            continue
        kept.append(text[at : it.start()])
        at, depth = it.end(), 1
        while depth:
            depth += {"{": 1, "}": -1}.get(text[at], 0)
            at += 1
    return "".join(kept) + text[at:]


def squeezed(text):
    """The text without white space, and without a comma that stands last in a list."""
    return re.sub(r",(?=[)}\]>])", "", re.sub(r"\s+", "", text))


def stands_in(folder, text):
    """Fails where the text stands in no source file below the folder, but for contracts and white space."""
    for at, _, names in os.walk(f"{ROOT}/{folder}"):
        for name in names:
            if name.endswith(".rt"):
                with open(os.path.join(at, name), encoding="utf-8") as it:
                    if squeezed(text) in squeezed(without_clauses(it.read())):
                        return
    raise Wrong(f"it does not stand so in {folder}")


def judge(room, role, text, before):
    """Runs one fence. What the one above printed is `before`; answers what this one printed, where it is a command."""
    what, *more = [it.strip() for it in role.split(",")]
    is_java = "java" in more
    if is_java and not (shutil.which("java") and shutil.which("javac")):
        return "left out"
    verb, _, name = what.partition(" ")
    if what == "run":
        return room.run(text.replace("8000", str(free_port())))
    if what == "two terminals":
        return room.run_two(text)
    if what == "prints":
        if before is None:
            raise Wrong("no command stands above it")
        if before != "left out":
            compare(before, text, is_java)
    elif verb == "file":
        room.write(name, text)
    elif verb == "is":
        with open(f"{ROOT}/{name}", encoding="utf-8") as it:
            if squeezed(it.read()) != squeezed(text):
                raise Wrong(f"it is not {name}")
    elif verb == "in":
        stands_in(name, text)
    elif what != "form":
        raise Wrong(f"nobody knows what '{role}' is")
    return None


def main(words):
    gate = words[words.index("--gate") + 1] if "--gate" in words else "0 passed, 0 failed"
    words = [it for it in words if it not in ("--gate", gate)]
    program = os.path.abspath(words[0]) if words else f"{ROOT}/crates/jdwp/out/jdwp"
    if not os.path.isfile(program):
        print(f"examples: there is no {program}: rt run in crates/jdwp builds it")
        return 1
    room, passed, failed, said, of = Room(program), 0, 0, None, ""
    try:
        for page, line, role, text in [*fences(), ("", 0, "form", "")]:
            if said is not None and not (role or "").startswith("prints"):
                print(f"{of}: its output stands nowhere")
                failed += 1
            of = f"{page}:{line}"
            try:
                if role is None:
                    raise Wrong("no comment above it says what it is")
                said = judge(room, role, text, said)
                if said == "left out":
                    print(f"{of}: left out, as no JDK is here")
                if (role.split(",")[0] not in ("form", "run", "two terminals")) and said != "left out":
                    passed += 1
            except Wrong as why:
                print(f"{of}: {why}")
                failed, said = failed + 1, None
    finally:
        shutil.rmtree(room.at, ignore_errors=True)
    print(f"examples: {passed} as they stand, {failed} not")
    numbers = [int(it) for it in re.findall(r"(\d+) (?:passed|failed)", gate)[:2]]
    print(f"{numbers[0] + passed} passed, {numbers[1] + failed} failed")
    return 1 if failed else 0


if __name__ == "__main__":
    sys.exit(main(sys.argv[1:]))
