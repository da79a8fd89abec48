"""Where a package comes from: its version, commit and time, and the checksums of the crates and of the program."""
import hashlib
import os
import subprocess
import time
from dataclasses import dataclass

from carp_run import Refusal, contents

from carp_package.contents import paths_in

PARTS = ("src", "specs", "proofs")


@dataclass(frozen=True)
class Origin:
    """Where a package comes from; `seconds` is the commit's time, and `named` tells if somebody named the program."""

    commit: str
    seconds: int
    crates: str
    program: str
    named: bool

    @property
    def version(self) -> str:
        """The version of the package: a later commit has a greater one."""
        name, *changed = self.commit.split(" ")
        moment = time.strftime("%Y%m%d.%H%M%S", time.gmtime(self.seconds))
        return f"0.{moment}+{'.'.join([name[:12], *changed])}-1"

    @property
    def date(self) -> str:
        """The day of the commit."""
        return time.strftime("%Y-%m-%d", time.gmtime(self.seconds))

    def text(self) -> str:
        """Returns what the version file holds."""
        origin = "named by whoever made the package" if self.named else "the one that the checkout built"
        moment = time.strftime("%Y-%m-%dT%H:%M:%SZ", time.gmtime(self.seconds))
        return (
            f"carp {self.version}\ncommit {self.commit}\ntime {moment}\n"
            f"crates sha256 {self.crates}\nprogram sha256 {self.program} ({origin})\n"
        )


def git(top: str, *words: str) -> str:
    """Returns what git says of a checkout."""
    try:
        done = subprocess.run(["git", "-C", top, *words], capture_output=True, text=True)
    except OSError as error:
        raise Refusal(f"git cannot be run: {error.strerror}; --commit names the commit without it") from error
    if done.returncode != 0:
        said = done.stderr.strip().split("\n")[0]
        raise Refusal(f"git cannot tell the commit of {top}: {said}; --commit names it")
    return done.stdout.strip()


def commit_of(top: str) -> str:
    """Returns the commit of a checkout, and after a blank `changed` if its files are others."""
    commit = git(top, "rev-parse", "HEAD")
    return f"{commit} changed" if git(top, "status", "--porcelain") else commit


def seconds_of(top: str) -> int:
    """Returns the time of a package: the one that the environment sets, or else that of the commit."""
    set_time = os.environ.get("SOURCE_DATE_EPOCH") or git(top, "log", "-1", "--format=%ct")
    if not (set_time.isascii() and set_time.isdigit() and len(set_time) <= 10):
        raise Refusal(f"SOURCE_DATE_EPOCH is no number of seconds: {set_time!r}")
    return int(set_time)


def sources_in(top: str) -> list[str]:
    """Returns the sorted paths of what the program is proved and built from."""
    crates = os.path.join(top, "crates")
    names = (f"crates/{name}" for name in paths_in(crates))
    return sorted([name for name in names if name.split("/")[2] in PARTS] + ["crates.txt"], key=os.fsencode)


def checksum_of(top: str, names: list[str]) -> str:
    """Returns the sha256 of the lines that `sha256sum` writes for these files."""
    lines = [f"{hashlib.sha256(contents(os.path.join(top, name))).hexdigest()}  {name}\n" for name in names]
    return hashlib.sha256("".join(lines).encode("utf-8")).hexdigest()


def refuse_older(top: str, program: str, names: list[str]) -> None:
    """Refuses a program that is older than what it should have been built from."""
    built = os.stat(program).st_mtime_ns
    for name in names:
        if os.stat(os.path.join(top, name)).st_mtime_ns > built:
            raise Refusal(f"{program} is older than {name}; run ./carp once, which builds it again")


def origin_of(top: str, program: str, data: bytes, commit: str | None) -> Origin:
    """Returns where a package of this program comes from."""
    names = sources_in(top)
    named = bool(os.environ.get("CARP"))
    if not named:
        refuse_older(top, program, names)
    found = commit or commit_of(top)
    return Origin(found, seconds_of(top), checksum_of(top, names), hashlib.sha256(data).hexdigest(), named)
