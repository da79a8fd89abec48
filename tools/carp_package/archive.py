"""Lays out the files of a package, and has Debian's tools make it."""
import gzip
import hashlib
import os
import shutil
import subprocess
import tempfile
import time
from email.utils import formatdate
from pathlib import Path

from carp_run import Refusal, contents

from carp_package.contents import DOCUMENTS, SHARED, File
from carp_package.origin import Origin

MACHINES = {62: "amd64", 183: "arm64"}
MAINTAINER = "The authors of carp <carp@authors.invalid>"
RECOMMENDED = (
    "graphviz", "libjs-leaflet", "python3-distributed", "python3-matplotlib", "python3-pyosmium", "python3-scipy",
)
DESCRIPTION = """\
solver of the Capacitated Arc Routing Problem with proved bounds
 Vehicles of one capacity leave a depot and serve each required street once.
 carp finds their tours, a lower bound on the cost of any plan, and a
 certificate of that bound, which it also verifies.
 .
 Its tools make instances of maps of OpenStreetMap, and write the tours as
 street sheets, as tracks and on maps.
"""
COPYRIGHT = """\
Format: https://www.debian.org/doc/packaging-manuals/copyright-format/1.0/
Upstream-Name: carp
Comment: No licence is stated in the repository yet.

Files: *
Copyright: {year} The authors of carp
License: none-stated
 No licence is stated yet. All rights are reserved by the authors.
"""
CHANGELOG = """\
carp ({version}) unstable; urgency=medium

  * Made of the commit {commit}.

 -- {maintainer}  {date}
"""
LAUNCHER = """\
#!/bin/sh
# Runs the tool that the name of the call says, or tells the version. Python may keep no compiled modules here, since a
# removal would leave them behind.
folder=$(dirname "$(readlink -f "$0")") || exit 1
name=$(basename "$0")
if [ "$*" = --version ]; then
  exec sed "1s/^carp /$name /" "$folder/version"
fi
export PYTHONDONTWRITEBYTECODE=1
exec "$folder/${name#carp-}" "$@"
"""
# The program is installed byte for byte as it was built, with the names of its functions.
OVERRIDES = "carp: unstripped-binary-or-object [usr/bin/carp]\n"


def packed(text: str) -> bytes:
    """Returns a text as gzip packs it best, without a time."""
    return gzip.compress(text.encode("utf-8"), 9, mtime=0)


def machine_of(path: str, data: bytes) -> str:
    """Returns Debian's name of the machine that a program is for."""
    name = MACHINES.get(int.from_bytes(data[18:20], "little")) if data[:6] == b"\x7fELF\x02\x01" else None
    if name is None:
        raise Refusal(f"{path} is no program for one of these machines: {', '.join(MACHINES.values())}")
    return name


def files_of(origin: Origin, program: bytes) -> list[File]:
    """Returns the program, and the files that tell where the package comes from."""
    date = formatdate(origin.seconds)
    change = CHANGELOG.format(version=origin.version, commit=origin.commit, maintainer=MAINTAINER, date=date)
    rights = COPYRIGHT.format(year=time.gmtime(origin.seconds).tm_year)
    return [
        File("usr/bin/carp", program, runs=True),
        File(f"{SHARED}/launch", LAUNCHER.encode("ascii"), runs=True),
        File(f"{SHARED}/version", origin.text().encode("utf-8")),
        File(f"{DOCUMENTS}/changelog.Debian.gz", packed(change)),
        File(f"{DOCUMENTS}/copyright", rights.encode("ascii")),
        File("usr/share/lintian/overrides/carp", OVERRIDES.encode("ascii")),
    ]


def lay_out(folder: str, files: list[File]) -> None:
    """Writes files under a folder that is the root."""
    for file in files:
        path = os.path.join(folder, file.path)
        os.makedirs(os.path.dirname(path), exist_ok=True)
        with open(path, "xb") as opened:
            opened.write(file.data)
        os.chmod(path, 0o755 if file.runs else 0o644)


def link(folder: str, links: dict[str, str]) -> None:
    """Makes links with their targets under a folder that is the root."""
    for name, target in links.items():
        path = os.path.join(folder, name)
        os.makedirs(os.path.dirname(path), exist_ok=True)
        os.symlink(target, path)


def called(words: list[str], package: str, folder: str, seconds: int, code: int) -> str:
    """Runs a tool of a package of Debian, and returns what it wrote; the code is that of the refusal if it fails."""
    known = {**os.environ, "LC_ALL": "C.UTF-8", "SOURCE_DATE_EPOCH": str(seconds)}
    if shutil.which(words[0]) is None:
        raise Refusal(f"{words[0]} is not there; it comes with Debian's package {package}")
    done = subprocess.run(words, cwd=folder, capture_output=True, text=True, env=known)
    if done.returncode != 0:
        lines = done.stderr.strip().splitlines() or ["no answer"]
        raise Refusal(f"{words[0]} failed: {lines[-1].removeprefix(f'{words[0]}: ')}", code)
    return done.stdout


def libraries_of(program: str, seconds: int) -> list[str]:
    """Returns the packages that a program needs, with the versions that it needs at least."""
    with tempfile.TemporaryDirectory(prefix="carp-") as folder:
        lay_out(folder, [File("debian/control", b"Source: carp\n\nPackage: carp\nArchitecture: any\n")])
        said = called(["dpkg-shlibdeps", "-O", program], "dpkg-dev", folder, seconds, 1)
    return [line.removeprefix("shlibs:Depends=") for line in said.splitlines() if line.startswith("shlibs:Depends=")]


def control_of(root: str, files: list[File], origin: Origin) -> list[File]:
    """Returns what Debian is told of a package that is laid out."""
    program = next(file.data for file in files if file.path == "usr/bin/carp")
    path = os.path.join(root, "usr", "bin", "carp")
    size = sum((len(file.data) + 1023) // 1024 for file in files)
    needed = ", ".join([*libraries_of(path, origin.seconds), "python3 (>= 3.11)"])
    lines = (
        "Package: carp", f"Version: {origin.version}", f"Architecture: {machine_of(path, program)}",
        f"Maintainer: {MAINTAINER}", f"Installed-Size: {size}", f"Depends: {needed}",
        f"Recommends: {', '.join(RECOMMENDED)}", "Section: science", "Priority: optional",
        f"Description: {DESCRIPTION}",
    )
    ordered = sorted(files, key=lambda file: file.path)
    sums = "".join(f"{hashlib.md5(file.data).hexdigest()}  {file.path}\n" for file in ordered)
    return [File("DEBIAN/control", "\n".join(lines).encode("ascii")), File("DEBIAN/md5sums", sums.encode("utf-8"))]


def settle(root: str, seconds: int) -> None:
    """Gives each folder its rights, and everything one time, whoever lays it out when."""
    for path in [Path(root), *Path(root).rglob("*")]:
        os.utime(path, (seconds, seconds), follow_symlinks=False)
        if path.is_dir():
            path.chmod(0o755)


def archive(files: list[File], links: dict[str, str], origin: Origin) -> bytes:
    """Returns the package of these files and links: the same bytes for the same input."""
    with tempfile.TemporaryDirectory(prefix="carp-") as folder:
        root, made = os.path.join(folder, "root"), os.path.join(folder, "made.deb")
        lay_out(root, files)
        link(root, links)
        lay_out(root, control_of(root, files, origin))
        settle(root, origin.seconds)
        # More threads cut what is packed at other places.
        words = ["dpkg-deb", "--root-owner-group", "--threads-max=1", "-Zxz", "--build", root, made]
        called(words, "dpkg", folder, origin.seconds, 7)
        return contents(made)
