"""Pages against the tree: links, what each crate stands on, layers, counts and lengths; and whether each edit can be made at all.

No program is needed. What pages say of the program is compared in test_profile.
"""

import glob
import os
import re
import subprocess
import sys

import kit

# A page has at most so many lines, and a line of a table at most so many characters.
MOST_LINES = {"README.md": 90, "bench/README.md": 120}
CRATE_LINES = (5, 42)
# The page of this crate is the reference of a format.
MOST_LINES_OF_A_FORMAT = {"dialogues": 70}
MOST_IN_A_ROW = 600
# In a page for whoever runs the program, a sentence has at most so many words, and a paragraph.
PAGES_FOR_USERS = ["README.md", "SECURITY.md"] + [
    "docs/%s.md" % it for it in "PROFILE CONFIGURATION COMMANDS DIALOGUE OPERATING STATUS MIGRATING TRUST".split()]
MOST_IN_A_SENTENCE = 40
MOST_IN_A_PARAGRAPH = 120
# The gate tries at most so many edits.
MOST_EDITS = 50
# Names in code spans that are of the library, of the system or of other programs.
NAMES_OF_OTHERS = {"delete_queue", "jiff_fmt", "map_or", "overcommit_memory"}


def text_of(path):
    with open(os.path.join(kit.TREE, path), encoding="utf-8") as file:
        return file.read()


def is_there(path):
    return os.path.exists(os.path.join(kit.TREE, path))


def found(*patterns):
    """The files of the tree that have one of these patterns, in order."""
    paths = [path for pattern in patterns for path in glob.glob(os.path.join(kit.TREE, pattern))]
    return sorted(os.path.relpath(path, kit.TREE) for path in paths)


def pages():
    return found("*.md", "docs/*.md", "tests/*.md", "bench/*.md", "examples/*/README.md", "crates/*/README.md")


def crates():
    """The crates in the order of crates.txt, each with what it stands on."""
    lines = [line.strip() for line in text_of("crates.txt").splitlines()]
    rows = [line.split(":") for line in lines if line and not line.startswith("#")]
    return {name: below.split() for name, below in rows}


def anchors_in(text):
    """The anchors of a page's titles, as GitHub makes them."""
    titles = re.findall(r"^#+ (.*)$", text, re.M)
    return {re.sub(r"[^\w\- ]", "", title.lower()).strip().replace(" ", "-") for title in titles}


def broken_links(page):
    text = text_of(page)
    for target, anchor in re.findall(r"\]\(([^)#\s]*)(?:#([^)\s]+))?\)", text):
        if target.startswith(("http:", "https:")):
            continue
        path = os.path.join(os.path.dirname(page), target) if target else page
        if not is_there(path):
            yield "%s: there is no %s" % (page, target)
        elif anchor and anchor not in anchors_in(text_of(path)):
            yield "%s: %s has no title for #%s" % (page, target or "the page", anchor)


def missing_files(page):
    """Files of the repository that a page names in a code span and that are not there. A word in capitals stands for any."""
    for path in re.findall(r"`(?:\./)?((?:tools|tests|bench|attack|docs|examples|releases)/[\w./@-]*\w)", text_of(page)):
        beside = os.path.join(os.path.dirname(page), path)
        is_any = any(it.isupper() for it in path.split("/"))
        if not is_any and not any(map(is_there, (path, path + ".edit", beside))):
            yield "%s: there is no %s" % (page, path)
    if page.startswith("crates/"):
        for path in re.findall(r"`((?:src|specs|proofs)/[\w./+-]+)`", text_of(page)):
            if not is_there(os.path.join(os.path.dirname(page), path)):
                yield "%s: there is no %s in its folder" % (page, path)


def words_of_the_tree():
    """Each word of code, definitions, proofs, tests and scripts, and each name of a file or folder, without its ending."""
    words = set()
    for place, folders, names in os.walk(kit.TREE):
        folders[:] = [it for it in folders if it not in ("out", ".git", ".unpacked", "__pycache__") and not it.startswith(".build-")]
        words.update(it.partition(".")[0] for it in folders + names)
        for name in names:
            if name.endswith((".rt", ".antt", ".py", ".sh", ".toml", ".txt", ".edit", ".service", ".c")):
                with open(os.path.join(place, name), encoding="utf-8", errors="replace") as file:
                    words.update(re.findall(r"[A-Za-z_][A-Za-z0-9_]*", file.read()))
    return words


def names_that_are_gone(page, words):
    """Names in code spans that look like a crate, a module, a function or a file, and that nothing in the tree has."""
    for span in re.findall(r"`([^`\n]+)`", re.sub(r"^```.*?^```", "", text_of(page), flags=re.M | re.S)):
        for name in re.findall(r"(?<![\w$%.-])[a-z][a-z0-9]*_[a-z0-9_]+(?![\w-])", span):
            if name not in words and name not in NAMES_OF_OTHERS:
                yield "%s: nothing is called %s" % (page, name)


def paragraphs(text):
    """The paragraphs and points of lists of a page, a line each, in which a code span is a word and a link its words."""
    text = re.sub(r"^```.*?^```", "", text, flags=re.M | re.S)
    text = re.sub(r"^(?:    |[|#<]).*$", "", text, flags=re.M)
    for part in re.split(r"\n\s*\n|\n(?= *(?:- |\d+\. ))", text):
        yield re.sub(r"\]\([^)]*\)", "]", re.sub(r"`[^`]*`", "CODE", " ".join(part.split())))


def words_in(text):
    return len(re.findall(r"[\w'-]+", text))


def long_texts(page):
    """Sentences and paragraphs that nobody reads once."""
    for it in paragraphs(text_of(page)):
        if words_in(it) > MOST_IN_A_PARAGRAPH:
            yield "%s: a paragraph of %d words, of at most %d: %.60s" % (page, words_in(it), MOST_IN_A_PARAGRAPH, it)
        for sentence in re.split(r"(?<=[.!?:])[)\"*]*\s+(?=[A-Z*(\[\d])", it):
            if words_in(sentence) > MOST_IN_A_SENTENCE:
                yield "%s: a sentence of %d words, of at most %d: %.60s" % (page, words_in(sentence), MOST_IN_A_SENTENCE, sentence)


def files_of_tests():
    return {os.path.basename(it)[5:-3] for it in found("tests/test_*.py")}


def tests_that_are_gone(page):
    """Files of tests that a page names as words of `tests/run` and that are not there."""
    for words in re.findall(r"`(?:[A-Z_]+=\S+ )?tests/run ([^`]+)`", text_of(page)):
        for word in words.split():
            name = word.split(".")[0]
            if re.fullmatch(r"[a-z_]+", name) and name not in files_of_tests():
                yield "%s: there is no tests/test_%s.py" % (page, name)


def scripts_that_are_gone():
    """Scripts named try_ in a text of the tree that are not in tools."""
    texts = found("tools/*", "bench/*", "tests/*", "examples/*", "examples/*/*", "seedlinkd", ".ci/run")
    for path in pages() + [it for it in texts if os.path.isfile(os.path.join(kit.TREE, it)) and not it.endswith(".mseed")]:
        for name in re.findall(r"\btry_\w+\.(?:sh|py)\b", text_of(path)):
            if not is_there("tools/" + name):
                yield "%s: there is no tools/%s" % (path, name)


def wrong_crate_page(name, below, own):
    """What the page of a crate has otherwise than it should."""
    page = "crates/%s/README.md" % name
    if not is_there(page):
        yield "%s is missing" % page
        return
    text = text_of(page)
    if not text.startswith("# `%s`\n" % name):
        yield "%s: its title is not `%s`" % (page, name)
    lines, least, most = text.count("\n"), CRATE_LINES[0], MOST_LINES_OF_A_FORMAT.get(name, CRATE_LINES[1])
    if not least <= lines <= most:
        yield "%s: %d lines, where %d to %d are wanted" % (page, lines, least, most)
    said = re.search(r"^Stands on (.*)$", text, re.M)
    here, _, kit_part = (said.group(1) if said else "").partition(" of the kit on ")
    named = [re.findall(r"`(\w+)`", part) for part in (here, kit_part)]
    stands = [[it for it in below if it in own], [it for it in below if it not in own]]
    if named != stands:
        yield "%s: stands on %s, and of the kit on %s" % (page, " ".join(stands[0]), " ".join(stands[1]))


def wrong_layers():
    """In the picture of the layers, each crate stands on crates of lines below its own."""
    page = "docs/ARCHITECTURE.md"
    picture = re.search(r"^```\n(.*?)^```", text_of(page), re.M | re.S).group(1).splitlines()
    level = {name: at for at, line in enumerate(picture) for name in line.split()}
    all_crates = crates()
    for name, below in all_crates.items():
        for it in below:
            if name in level and it in level and level[it] <= level[name]:
                yield "%s: %s stands on %s, which is not below it" % (page, name, it)
    for name in level:
        if name not in all_crates:
            yield "%s: there is no crate %s" % (page, name)


def impossible_edits():
    """Each edit names a file of its crate, and texts that stand there once."""
    for edit in found("crates/*/must-fail/*.edit", "attack/*/*.edit"):
        crate, path = edit.split("/")[1], None
        for line in text_of(edit).splitlines():
            word, _, rest = line.partition(": ")
            if word == "file":
                path = "crates/%s/%s" % (crate, rest.strip())
            elif word == "old" and (path is None or not is_there(path) or text_of(path).count(rest) != 1):
                yield "%s: %s has not once %s" % (edit, path, rest.strip())


class Pages(kit.Test):
    """Each test lists what is wrong, and nothing may be."""

    def assert_none(self, wrong):
        wrong = sorted(set(wrong))
        self.assertFalse(wrong, "\n" + "\n".join(wrong))

    def test_links_lead_to_pages_and_titles(self):
        self.assert_none(it for page in pages() for it in broken_links(page))

    def test_files_that_pages_name_are_there(self):
        self.assert_none(it for page in pages() for it in missing_files(page))
        self.assert_none(scripts_that_are_gone())
        self.assert_none(it for page in pages() for it in tests_that_are_gone(page))

    def test_each_file_of_tests_stands_in_the_page_on_tests(self):
        table = text_of("docs/TESTED.md").split("**Tested from outside**")[1].split("\n\n**")[0]
        rows = [line.strip("| ").split(" | ")[-1] for line in table.splitlines() if line.startswith("| ")]
        self.assertEqual({name for row in rows[1:] for name in re.findall(r"`([a-z_]+)`", row)}, files_of_tests())

    def test_names_in_code_spans_are_names_of_something(self):
        words = words_of_the_tree()
        self.assert_none(it for page in pages() if page != "CHANGELOG.md" for it in names_that_are_gone(page, words))

    def test_each_crate_has_a_page_that_says_what_it_stands_on(self):
        own = crates()
        self.assert_none(it for name, below in own.items() for it in wrong_crate_page(name, below, own))

    def test_crates_stand_on_lower_layers(self):
        self.assert_none(wrong_layers())

    def test_pages_are_no_longer_than_they_may_be(self):
        lines = {page: text_of(page).count("\n") for page in MOST_LINES}
        self.assert_none("%s: %d lines, of at most %d" % (it, lines[it], MOST_LINES[it]) for it in lines if lines[it] > MOST_LINES[it])

    def test_rows_of_tables_can_be_read(self):
        self.assert_none(
            "%s:%d: a row of %d characters, of at most %d" % (page, number, len(line), MOST_IN_A_ROW)
            for page in pages()
            for number, line in enumerate(text_of(page).splitlines(), 1)
            if line.startswith("|") and len(line) > MOST_IN_A_ROW
        )

    def test_pages_for_users_can_be_read_once(self):
        self.assert_none(it for page in PAGES_FOR_USERS for it in long_texts(page))

    def test_counts(self):
        dialogues = len(found("crates/dialogues/data/*.dialogue"))
        said = re.findall(r"(\d+) files of dialogues", text_of("docs/TESTED.md"))
        self.assertEqual([int(it) for it in said], [dialogues] * len(said))
        self.assertLessEqual(len(found("crates/*/must-fail/*.edit")), MOST_EDITS)

    def test_each_edit_can_be_made(self):
        self.assert_none(impossible_edits())

    def test_what_is_written_from_the_tables_of_options_is_up_to_date(self):
        """The manual and the usages of COMMANDS; and the manual leaves out no option and no fault."""
        script = os.path.join(kit.TREE, "tools/write_manual.py")
        done = subprocess.run([sys.executable, script, "--check"], stdout=subprocess.PIPE, stderr=subprocess.PIPE, check=False)
        self.assertEqual((done.returncode, done.stderr.decode()), (0, ""))
