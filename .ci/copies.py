"""Copies of the repository with a release of a program at hand, for .ci/release and .ci/install."""

import hashlib
import os
import pathlib
import shutil
import subprocess

TOP = pathlib.Path(__file__).resolve().parent.parent
TOOLCHAIN = "stand-in 1"

# A stand-in for the toolchain. `rt ci` notes the files that it finds, says of each crate that it is proved,
# and makes the program that RT_PROGRAM names.
STAND_IN = """#!/bin/bash
case $* in
version) echo "${RT_VERSION:-stand-in 1}" ;;
ci)
    find . -type f | sort > "${0%/*}/found"
    sed 's/[ :].*//; s/.*/rt: & proved/' crates.txt
    [ -z "$RT_WAITS" ] || { echo "$$" > "${0%/*}/waits" && sleep 60; }
    [ -n "$RT_PROGRAM" ] || exit 1
    mkdir -p crates/amoebot/out
    cp "$RT_PROGRAM" crates/amoebot/out/amoebot
    cp "$RT_PROGRAM" crates/amoebot/out/amoebot.by-rattle ;;
esac
"""


def sum_of(file):
    """The sum (SHA-256) of a file."""
    return hashlib.sha256(file.read_bytes()).hexdigest()


def write_program(file, text):
    """Makes a file that can be started."""
    file.write_text(text)
    file.chmod(0o755)


class Copy:
    """A copy of the repository without what was built, and commands of its own.

    The folder `bare` has all commands of the path except the toolchain, and `tools` has a stand-in for that.
    """

    def __init__(self, folder):
        folder = pathlib.Path(folder)
        self.top, self.bare = folder / "a copy", folder / "bare"
        self.tools, self.temporary = folder / "tools", folder / "temporary"
        left_out = {TOP / name for name in (".git", "release", "try")}

        def ignored(at, names):
            return [name for name in names if name == "out" or pathlib.Path(at, name) in left_out]

        shutil.copytree(TOP, self.top, symlinks=True, ignore=ignored)
        for made in (self.bare, self.tools, self.temporary):
            made.mkdir()
        for place in reversed(os.get_exec_path()):
            for file in pathlib.Path(place).glob("*"):
                if file.name != "rt":
                    (self.bare / file.name).unlink(missing_ok=True)
                    (self.bare / file.name).symlink_to(file)
        write_program(self.tools / "rt", STAND_IN)

    def environment(self, toolchain=False, **more):
        """The variables of a call: without the toolchain, or with the stand-in."""
        path = f"{self.tools}:{self.bare}" if toolchain else str(self.bare)
        ours = ("RT_", "AMOEBOT", "GLIBC_TUNABLES")
        kept = {name: value for name, value in os.environ.items() if not name.startswith(ours)}
        more = {name: str(value) for name, value in more.items()}
        return {**kept, "PATH": path, "TMPDIR": str(self.temporary), **more}

    def call(self, command, document=b"", toolchain=False, **more):
        """The status of a shell's command in the copy, what it writes, and what it says on standard error."""
        how = {"cwd": self.top, "env": self.environment(toolchain, **more), "timeout": 300}
        ended = subprocess.run(["bash", "-c", command], input=document, capture_output=True, **how)
        return ended.returncode, ended.stdout.decode(errors="replace"), ended.stderr.decode(errors="replace")

    def sources(self):
        """The sum of the copy's sources."""
        return self.call("tools/sources")[1].strip()

    def put_release(self, program):
        """Gives the copy a release: this program, and its facts."""
        release = self.top / "release"
        release.mkdir(exist_ok=True)
        shutil.copyfile(program, release / "amoebot")
        (release / "amoebot").chmod(0o755)
        self.write_facts(TOOLCHAIN, self.sources(), sum_of(release / "amoebot"))

    def write_facts(self, toolchain, sources, program):
        """Writes the facts of the release."""
        facts = f"toolchain {toolchain}\nsources {sources}\nprogram {program}\n"
        (self.top / "release/amoebot.built").write_text(facts)

    def forget(self):
        """Removes what was built and told in the copy."""
        shutil.rmtree(self.top / "crates/amoebot/out", ignore_errors=True)
