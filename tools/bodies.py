"""Reads the blocks of wrong bodies in audit/, and puts their changes into a text. `try_bodies` and `try_programs` share it."""
import re

FIELD = re.compile(r"(name|call|body|clause|crate|script|test|file|old|new): ?(.*)$")


def bodies_of(path):
    """Returns the blocks of a file: each a dictionary of its fields, with its changes as pairs of old and new text."""
    found = []
    with open(path, encoding="utf-8") as file:
        blocks = re.split(r"\n\s*\n", file.read())
    for block in blocks:
        body = {"changes": []}
        for line in block.split("\n"):
            field = FIELD.match(line)
            if not field:
                continue
            if field[1] == "old":
                body["changes"].append([field[2].rstrip(), ""])
            elif field[1] == "new":
                body["changes"][-1][1] = field[2].rstrip()
            else:
                body[field[1]] = field[2].strip()
        if "name" in body:
            found.append(body)
    return found


def fits(text, body):
    """Whether each old text of the body stands just once in the text."""
    return all(text.count(old) == 1 for old, _ in body["changes"])


def changed(text, body):
    """The text with the changes of the body, from the last place on, since a new text may hold the old one of a change before it."""
    for place, old, new in sorted(((text.find(old), old, new) for old, new in body["changes"]), reverse=True):
        text = text[:place] + new + text[place + len(old) :]
    return text
