"""Programs here with the line `# changes the tree` change a copy of the repository, whose folder is their one word."""

import os
import sys


def path_of(name):
    return os.path.join(sys.argv[1], name)


def change(name, old, new):
    """Puts a text in place of another one, which stands in that file."""
    with open(path_of(name), encoding="utf-8") as file:
        text = file.read()
    if old not in text:
        sys.exit("%s has no %r" % (name, old))
    with open(path_of(name), "w", encoding="utf-8") as file:
        file.write(text.replace(old, new, 1))
