"""Prints the version of this tree, the first one of CHANGELOG.md, and has every other place state
the same.

    tools/version            prints it; fails, and names the places, where another version stands
    tools/version --write    writes it into all places
"""
import os
import re
import sys

from crates import ROOT, read

# Where the version stands besides: a file, and the text with the version or its number as a group.
PLACES = {
    "crates/command_line/src/words.rt": [r'(?<=const VERSION: &str = ")([0-9.]+)'],
    "crates/qlock_c/src/version.rt": [r"(?<=const MAJOR: u32 = )(\d+)", r"(?<=const MINOR: u32 = )(\d+)",
                                      r"(?<=const PATCH: u32 = )(\d+)", r"(?<=ensures \{ result ≡ )(\d+)"],
    "include/qlock.h": [r"(?<=#define QLOCK_VERSION )(\d+)"],
    "python/pyproject.toml": [r'(?<=^version = ")([0-9.]+)'],
    "python/qlock/__init__.py": [r'(?<=^__version__ = ")([0-9.]+)'],
}


def of_tree():
    """Returns the version of the tree."""
    return re.search(r"^## (\d+\.\d+\.\d+)", read("CHANGELOG.md"), re.MULTILINE)[1]


def wanted(version):
    """Returns what each place has to state, in its order."""
    major, minor, patch = version.split(".")
    number = str(int(major) * 10000 + int(minor) * 100 + int(patch))
    return {path: [major, minor, patch, number] if len(forms) == 4 else [number if path.endswith(".h") else version]
            for path, forms in PLACES.items()}


def main(words):
    print(checked(words == ["--write"]))


def checked(is_written=False):
    """Returns the version. Ends if another place states another one, or writes it there."""
    version, wrong = of_tree(), []
    for path, texts in wanted(version).items():
        content = read(path)
        for form, text in zip(PLACES[path], texts):
            found = re.search(form, content, re.MULTILINE)
            if not found:
                wrong.append(f"{path}: no version")
            elif found[1] != text:
                wrong.append(f"{path}: {found[1]}, and not {text}")
                content = content[:found.start()] + text + content[found.end():]
        if is_written:
            with open(os.path.join(ROOT, path), "w", encoding="utf-8") as file:
                file.write(content)
    if wrong and not is_written:
        sys.exit("version: " + "\nversion: ".join(wrong))
    return version
