"""Reads README.md and docs/ against the repository: what stands in backticks exists, and what stands as an example is one.
The last line is "N passed, M failed"; the exit status is 0 where none failed.

- A path names a file or a folder, from the top or within one; words in capitals stand for any name.
- `Type::item` names an item of a type, a trait, an enum or a module that are declared.
- An `_ITM_` name is an entry point or the beginning of one, and what docs/ABI.md lists as left out is none; on the page of
  compiled programs it stands in their library.
- Of every other span each word stands in the code, the definitions, the proofs, the tests or the examples.
- A block of Rattle is a part of a source file; a plain block of README.md or CALLING.md is a file of examples/, perhaps
  without its lines of comment, what a program prints, or a line of crates.txt; tests/steps.sh holds the tables of events.
  README.md counts the must-fail edits right.
- The runtime needs no handle, as CALLING.md has it: where no thread is started, no source names a lock, a thread or a cell
  that threads share, but for the table of words.
- The tables of files in docs/DEFINITIONS.md, and what the headline leads to there, are what tools/definitions.py prints.
- A link leads to a page that is there.
"""

import pathlib
import re
import sys

ROOT = pathlib.Path(__file__).resolve().parent.parent
sys.path.insert(0, str(ROOT / "tools"))
sys.dont_write_bytecode = True

import definitions  # noqa: E402

PAGES = [ROOT / "README.md", *sorted(ROOT.glob("docs/*.md"))]
SOURCES = [
    "crates.txt", "HANDLES", "itmrun", "itmsteps", "crates/*/stdout", "*.sh", ".ci/run", "tests/**/*", "tools/*", "bench/*", "examples/*", "judge/**/*",
    "compiled/**/*",
    *(f"crates/*/{part}/**/*" for part in ("src", "specs", "proofs", "must-fail", "wrong-bodies")),
]

WORD = re.compile(r"[A-Za-z_][A-Za-z0-9_]*")
CAPITALS = re.compile(r"[A-Z]+[0-9]?")
PATH = re.compile(r"\.{0,2}/?[\w*.-]+(?:/[\w*.-]+)+/?|[\w-]+\.(?:antt|rt|sh|md|itm|history|py|txt)")
ITEM = re.compile(r"(\w+)::(\w+)")
BLOCK = re.compile(r"^ *```(\w*)\n(.*?)^ *```$", re.M | re.S)
SPAN = re.compile(r"`([^`\n]+)`")
LINK = re.compile(r"\]\(([^)#]+)[^)]*\)")
THREADS = re.compile(r"\b(?:std|core)\s*(?:::\s*(?:sync\b|thread\b|\*|\{[^;]*\b(?:sync|thread)\b)|\s+as\b)")

# the crates that start threads or wait for them, and those of the kit that share nothing between threads
THREADED = {"tx_host", "run_commands", "itmrun", "bank", "tx_map", "bench_loads", "large_words", "thread_tests", "client_tests", "itm_c", "transactions", "tx_threads"}
UNSHARED = {"anyhow", "arrayvec", "clap", "hex", "indexmap", "itoa", "smallvec", "std_alloc", "thiserror"}

HINTS = {"R": ["R", "RaR", "RaW", "RfW"], "W": ["W", "WaR", "WaW"]}
TYPES = ["U1", "U2", "U4", "U8", "F", "D", "M64", "M128", "M256", "CF", "CD"]
SIDES = ["n", "t", "taR", "taW"]

# names of the ABI, of libitm and of tools that are told as what the repository does not have
ABROAD = {
    "TMConflict", "_ITM_noTransactionId", "_ITM_srcLocation", "_ZGTt", "dac8208d650f15bf", "defined", "delete",
    "exceptionBlockAbort", "memchr", "nm", "userRetry",
}


def entries():
    """The names of all entry points, by the rule of docs/HISTORIES.md."""
    plain = ["beginTransaction", "commitTransaction", "abortTransaction", "changeTransactionMode", "inTransaction"]
    names = plain + ["addUserCommitAction", "addUserUndoAction", "LB"]
    names += [hint + it for hints in HINTS.values() for hint in hints for it in TYPES]
    names += ["L" + it for it in TYPES]
    pairs = [(read, write) for read in SIDES for write in SIDES if (read, write) != ("n", "n")]
    names += [f"{it}R{read}W{write}" for it in ("memcpy", "memmove") for read, write in pairs]
    return {"_ITM_" + it for it in names + ["memset" + hint for hint in HINTS["W"]]}


def sources():
    """The texts of all files that docs speak of, by path."""
    files = {it for pattern in SOURCES for it in ROOT.glob(pattern) if it.is_file() and "out" not in it.parts}
    return {it.relative_to(ROOT): it.read_text(errors="replace") for it in files}


def uncommented(script):
    """The script without its lines of comment."""
    return "".join(line for line in script.splitlines(keepends=True) if not line.startswith(";"))


def unindented(text):
    """The text between two line feeds, with no line indented."""
    return "\n" + "\n".join(line.strip() for line in text.strip("\n").splitlines()) + "\n"


class Documents:
    def __init__(self):
        self.passed = self.failed = 0
        self.texts = sources()
        self.code = {path: text for path, text in self.texts.items() if path.suffix == ".rt"}
        files = [*self.texts, *(it.relative_to(ROOT) for it in PAGES)]
        self.paths = {str(it) for file in files for it in (file, *file.parents)}
        self.parts = [unindented(text) for text in self.code.values()]
        self.words = set(ABROAD)
        for path, text in self.texts.items():
            self.words.update(WORD.findall(text), WORD.findall(str(path)))
        self.entries = entries()

    def expect(self, holds, page, *said):
        if holds:
            self.passed += 1
        else:
            self.failed += 1
            print(f"failed: {page.relative_to(ROOT)}:", *said)

    def is_path(self, text):
        """Whether a file or a folder has this path, from the top or from any folder on; capitals stand for any name."""
        path = re.escape(text.removeprefix("./").rstrip("/")).replace(r"\*", "[^/]*")
        path = re.sub(r"\b[A-Z]+\b(?!\\.md)", "[^/]*", path)
        return any(re.fullmatch(rf"(?:.*/)?{path}", it) for it in self.paths)

    def is_item(self, owner, name):
        """Whether the owner is declared, and the name stands in a file that declares it or implements for it."""
        word = rf"\b{owner}\b"
        if (ROOT / "crates" / owner).is_dir():
            home = [text for path, text in self.texts.items() if path.parts[:2] == ("crates", owner)]
        else:
            owns = re.compile(rf"\b(?:struct|enum|trait|mod|type|impl\b[^{{;]*?)\s+{owner}\b")
            home = [text for text in self.code.values() if owns.search(text)]
        return any(re.search(rf"\b{name}\b", text) for text in home)

    def is_word(self, word):
        """Whether a word of a span names something."""
        if word.startswith("_ITM_") and word not in ABROAD:
            return any(it.startswith(word) for it in self.entries)
        return word in self.words

    def span(self, page, text):
        paths = PATH.findall(text)
        for it in paths:
            self.expect(self.is_path(it), page, "there is no file", it, "in", text)
        for owner, name in ITEM.findall(text):
            self.expect(owner in ("std", "str") or self.is_item(owner, name), page, "there is no", f"{owner}::{name}")
        words = [it for it in WORD.findall(PATH.sub(" ", text)) if not CAPITALS.fullmatch(it)]
        lacking = [it for it in words if not (self.is_word(it) or page.name == "COMPILED.md" and it in self.words)]
        self.expect(not lacking, page, "nothing is named", ", ".join(lacking), "in", text)

    def left_out(self, page, text):
        """What is listed as left out is no entry point, and is known from there on."""
        named = set(re.findall(r"`(_ITM_\w+)`", text))
        self.expect(named and not named & self.entries, page, "not left out:", *sorted(named & self.entries))
        return named

    def block(self, page, kind, text):
        if kind == "rust":
            held = any(unindented(text) in it for it in self.parts)
            self.expect(held, page, "no source has the lines", text.splitlines()[0].strip(), "..")
        elif not kind and page.name in ("README.md", "CALLING.md") and not text.startswith("event  thread"):
            files = [it for path, it in self.texts.items() if path.parts[0] == "examples" or path.name in ("stdout", "crates.txt")]
            held = any(text in (it, uncommented(it)) or text in it.splitlines(keepends=True) for it in files)
            self.expect(held, page, "no file has", text.splitlines()[0], "..")

    def page(self, page):
        text = page.read_text()
        for kind, block in BLOCK.findall(text):
            self.block(page, kind, block)
        text = BLOCK.sub("", text)
        for link in LINK.findall(text):
            self.expect((page.parent / link).exists(), page, "there is no page", link)
        spans = SPAN.findall(text)
        if page.name == "ABI.md":
            abroad = self.left_out(page, text.split("\n## Left out\n", 1)[-1])
            spans = [it for it in spans if it not in abroad]
        for it in spans:
            self.span(page, it)


    def counts(self):
        """README.md tells how many must-fail edits the prover refuses."""
        page = ROOT / "README.md"
        there = len([*ROOT.glob("crates/*/must-fail/*.edit")])
        self.expect(f"refuses {there} must-fail edits" in page.read_text(), page, "there are", str(there), "must-fail edits")

    def definitions(self):
        """docs/DEFINITIONS.md has the files of definitions as their comments say, and all that the headline leads to."""
        page = ROOT / "docs/DEFINITIONS.md"
        text = page.read_text()
        lines = text.splitlines()
        rows, total = definitions.headline_rows()
        told = [it for it in lines if re.fullmatch(r"`\w+` \| \d+ \| \d+ \| .*", it)]
        self.expect(told == rows, page, "the headline leads to", *(it for it in rows if it not in told))
        self.expect(total in text, page, "the headline leads to", total)
        files = [it for it in lines if re.match(r"`\w+/specs/", it)]
        known = {definitions.file_row(it) for it in definitions.spec_files(definitions.all_crates())}
        self.expect(files, page, "names no file of definitions")
        for it in files:
            self.expect(it in known, page, "no file begins so:", it)

    def handles(self):
        """CALLING.md says that the runtime needs no handle: it has nothing by which one thread could wait for another."""
        page = ROOT / "docs/CALLING.md"
        named = set()
        for path, text in self.code.items():
            lines = [it for it in text.splitlines() if not it.lstrip().startswith(("//", "ghost "))]
            if THREADS.search("\n".join(lines)):
                named.add(path.parts[1])
        self.expect(named == THREADED, page, "locks, shared cells or threads in", *sorted(named ^ THREADED))
        lines = [it.partition("#")[0] for it in self.texts[pathlib.Path("crates.txt")].splitlines()]
        pairs = [it.partition(":") for it in lines if it.strip()]
        below = {name.split()[0]: set(uses.split()) for name, _, uses in pairs}
        for name in sorted(below.keys() - THREADED):
            shared = below[name] - below.keys() - UNSHARED
            of_words = {"atomic_table"} if name == "shared_words" else set()
            self.expect(shared == of_words, page, name, "uses", *sorted(shared))


def main():
    documents = Documents()
    documents.counts()
    documents.definitions()
    documents.handles()
    for page in PAGES:
        documents.page(page)
    print(f"{documents.passed} passed, {documents.failed} failed")
    return 1 if documents.failed else 0


if __name__ == "__main__":
    sys.exit(main())
