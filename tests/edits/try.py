"""Tries each edit of must-fail/ and wrong-bodies/ with the compiler; tests/edits.sh says how."""

import concurrent.futures
import os
import pathlib
import re
import shutil
import subprocess
import sys
import tempfile

ROOT = pathlib.Path(sys.argv[1])
CRATES = ROOT / "crates"
KIT = pathlib.Path(shutil.which("rt") or sys.exit("edits: there is no rt")).resolve().parents[1]


def listed():
    """What each crate of crates.txt stands on."""
    lines = [line.partition("#")[0] for line in (ROOT / "crates.txt").read_text().splitlines()]
    pairs = [line.partition(":") for line in lines if line.strip()]
    return {name.strip(): below.split() for name, _, below in pairs}


LISTED = listed()


def below(name):
    """The repository's libraries below a crate, each after those that it uses."""
    found = []
    for other in LISTED[name]:
        if other in LISTED:
            found += [it for it in [*below(other), other] if it not in found]
    return found


def quick_pass(name):
    """The command that compiles a crate, from its folder, and proves no function."""
    root = "src/main.rt" if (CRATES / name / "src/main.rt").is_file() else "src/lib.rt"
    words = [f"{KIT}/bin/rattle", "check", "--crate-name", name, root, "--jobs", "1", "--only", ""]
    of_kit = {other for it in [name, *below(name)] for other in LISTED[it] if other not in LISTED}
    for it in sorted({"core", "std", *of_kit}):
        words += ["--extern", f"{it}={KIT}/rlibs/{it}.rlib"]
    for it in below(name):
        uses = ",".join(dict.fromkeys(["core", "std", *LISTED[it]]))
        words += ["--lib", f"{it}:{uses}={CRATES / it}/src/lib.rt"]
    words += ["-L", f"dependency={KIT}/rlibs", "--logic-built", f"{KIT}/logic_built"]
    return [*words, "--antt-project", f"{KIT}/rattle/logic/antt-project.json"]


def lay(edit, texts):
    """Lays an edit over texts of its crate, by path; gives the functions that it changes, and why it does not apply."""
    path, old, changed = None, None, set()
    for line in edit.read_text().splitlines():
        word, _, rest = line.partition(" ")
        if word == "file:":
            path, file = rest, edit.parents[1] / rest
            if not file.is_file():
                return changed, f"there is no file {path}"
            texts.setdefault(path, file.read_text())
        elif word == "old:":
            old = rest
        elif word == "new:":
            if not path or not old:
                return changed, "a new text stands before any file or old text"
            count = texts[path].count(old)
            if count != 1:
                return changed, f"an old text stands {count} times"
            if rest == old:
                return changed, "it changes nothing"
            # a function by how many begin up to there
            end = texts[path].index(old) + len(old)
            changed.add((path, len(re.findall(r"\bfn ", texts[path][:end]))))
            texts[path] = texts[path].replace(old, rest)
            old = None
    return changed, None if changed else "it has no old and new text"


def fault_of(name, edits):
    """What the compiler finds wrong in the crate with these edits."""
    texts = {}
    for edit in edits:
        _, fault = lay(edit, texts)
        if fault:
            return fault
    with tempfile.TemporaryDirectory() as room:
        for part in ("src", "specs", "proofs"):
            if (CRATES / name / part).is_dir():
                shutil.copytree(CRATES / name / part, f"{room}/{part}")
        for path, text in texts.items():
            pathlib.Path(room, path).write_text(text)
        how = {"stdin": subprocess.DEVNULL, "stdout": subprocess.PIPE, "stderr": subprocess.STDOUT, "errors": "replace"}
        said = subprocess.run(quick_pass(name), cwd=room, text=True, **how).stdout.rstrip("\n").split("\n")
    errors = [line for line in said if re.search(r"\berror\b", line)]
    if said[-1].startswith("only=") and not errors:
        return None
    return (errors or said[-1:])[0][:300]


def batches(edits):
    """Packs edits, given with the functions that each changes, so that no function is changed twice."""
    packed = []
    for edit, changed in edits:
        for batch, taken in packed:
            if not taken & changed:
                batch.append(edit)
                taken |= changed
                break
        else:
            packed.append(([edit], set(changed)))
    return [batch for batch, _ in packed]


def judge(name, batch):
    """Gives each edit of the batch with what is wrong with it."""
    fault = fault_of(name, batch)
    if fault is None or len(batch) == 1:
        return [(edit, fault) for edit in batch]
    half = len(batch) // 2
    return judge(name, batch[:half]) + judge(name, batch[half:])


def main():
    judged, waiting = [], []
    with concurrent.futures.ThreadPoolExecutor(len(os.sched_getaffinity(0))) as pool:
        for name in sys.argv[2:] or LISTED:
            applied = []
            folders = [CRATES / name / it for it in ("must-fail", "wrong-bodies")]
            for edit in sorted(it for folder in folders for it in folder.glob("*.edit")):
                changed, fault = lay(edit, {})
                if fault:
                    judged.append((edit, fault))
                else:
                    applied.append((edit, changed))
            waiting += [pool.submit(judge, name, batch) for batch in batches(applied)]
        for it in waiting:
            judged += it.result()
    failed = [(edit, fault) for edit, fault in judged if fault]
    for edit, fault in failed:
        print(f"failed: {edit.relative_to(CRATES)}: {fault}")
    print(f"{len(judged) - len(failed)} passed, {len(failed)} failed")
    return len(failed) != 0


sys.exit(main())
