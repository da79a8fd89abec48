"""The words by which a crate is checked over libraries that are proved already."""
import os
import subprocess


def dependencies():
    """Returns, for each crate of crates.txt, the names that stand behind it: crates and libraries of the kit."""
    found = {}
    with open("crates.txt", encoding="utf-8") as file:
        for line in file:
            name, colon, names = line.partition(":")
            if colon and not name.startswith("#"):
                found[name.split()[0]] = names.split()
    return found


def below(crate, found):
    """Returns all crates below a crate."""
    crates = [name for name in found[crate] if name in found]
    return set(crates).union(*(below(name, found) for name in crates))


def words_over(crate, folder):
    """Returns the words that check a crate in its own folder, over the libraries of a folder: FOLDER/NAME/out/rlib/NAME.rlib for each crate below it."""
    found, folder = dependencies(), os.path.realpath(folder)
    kit = os.path.dirname(subprocess.run(["rt", "doc"], capture_output=True, text=True, check=True).stdout.strip())
    root = "src/lib.rt" if os.path.exists(f"crates/{crate}/src/lib.rt") else "src/main.rt"
    words = [f"{kit}/bin/rattle", "check", "--crate-name", crate, root]
    words += ["--antt-project", f"{kit}/rattle/logic/antt-project.json", "--logic-built", f"{kit}/logic_built"]
    words += ["--extern", f"std={kit}/rlibs/std.rlib", "-L", f"dependency={kit}/rlibs"]
    for name in found[crate]:
        words += ["--extern", f"{name}={folder}/{name}/out/rlib/{name}.rlib" if name in found else f"{name}={kit}/rlibs/{name}.rlib"]
    for name in sorted(below(crate, found)):
        words += ["-L", f"dependency={folder}/{name}/out/rlib"]
    return [*words, "--jobs", "1", "--incremental", "out/incremental"]
