"""Looks whether the must-fail edits apply, as `rt must-fail` applies them.

An edit has a line 'file: src/..' and pairs of lines 'old: TEXT' and 'new: TEXT', for one file or more. Each old text stands exactly
once in its file as the pairs before it left it, and what the pairs make of the files is not what they were. Run at the top of the
repository; ends with 1 where an edit does not apply, and where no edit is found.
"""

import os
import re
import sys

# What begins a line that is only to be read.
REMARKS = ("#", "--", "//")


class Fault(Exception):
    """Why an edit does not apply."""


def read(path):
    try:
        with open(path, encoding="utf-8") as it:
            return it.read()
    except (OSError, ValueError) as error:
        raise Fault(f"{path} cannot be read: {error}") from None


def replaced(crate, path, texts, old, new):
    """The text of a file of the crate once a pair is applied to what the pairs so far left of it."""
    if not path.startswith("src/") or os.path.normpath(path) != path:
        raise Fault(f"it is of {path}, and an edit of what is not below src/ shows nothing of a contract")
    text = texts[path] if path in texts else read(f"{crate}/{path}")
    found = text.count(old)
    if found != 1:
        raise Fault(f"its old text stands {found} times in {path}, and not once: {old.strip()}")
    return text.replace(old, new)


def apply(edit, crate):
    """Applies the pairs of an edit in their order, or tells why they do not apply."""
    texts, path, old = {}, None, None
    for line in read(edit).split("\n"):
        if line.startswith("file: ") and old is None:
            path = line[len("file: ") :].strip()
        elif line.startswith("old: ") and line != "old: " and path and old is None:
            old = line[len("old: ") :]
        elif line.startswith("new:") and old is not None:
            texts[path] = replaced(crate, path, texts, old, re.sub("^new: ?", "", line))
            old = None
        elif line.strip() and not line.startswith(REMARKS):
            raise Fault(f"a line of it is not read, where it stands: {line}")
    if old is not None:
        raise Fault("its last old text has no new one")
    if all(read(f"{crate}/{path}") == text for path, text in texts.items()):
        raise Fault("it changes nothing")


def fault_of(edit, crate, seen):
    """Why an edit is not tried or does not apply, or None. No two of a crate have one name, since all are tried in one folder."""
    name = os.path.basename(edit)
    if not re.fullmatch(r"[A-Za-z0-9_-][A-Za-z0-9_.-]*\.edit", name) or not os.path.isfile(edit):
        return "it is no file with a name of letters, digits, _, - and . and .edit behind them"
    if not os.path.isdir(f"{crate}/src"):
        return f"{crate} is no crate"
    if (crate, name) in seen:
        return f"another edit of {crate} has its name"
    seen.add((crate, name))
    try:
        apply(edit, crate)
    except Fault as fault:
        return str(fault)
    return None


def inside(folder):
    """What stands in a folder, if there is one, but pages that are only to be read."""
    names = sorted(os.listdir(folder)) if os.path.isdir(folder) else []
    return [f"{folder}/{name}" for name in names if not name.endswith(".md")]


def main():
    gate = [(edit, crate) for crate in inside("crates") for edit in inside(f"{crate}/must-fail")]
    others = [(edit, f"crates/{os.path.basename(folder)}") for folder in inside(".ci/edits.d") for edit in inside(folder) or [folder]]
    seen, failed = set(), 0
    for edit, crate in gate + others:
        fault = fault_of(edit, crate, seen)
        if fault:
            print(f"edits_apply: {edit}: {fault}")
            failed += 1
    if not gate:
        print("edits_apply: there is no edit that the gate tries")
        return 1
    told = f"{failed} do not apply" if failed else "each applies"
    print(f"edits_apply: {len(gate)} edits that the gate tries, and {len(others)} others: {told}")
    return 1 if failed else 0


sys.exit(main())
