#!/usr/bin/env bash
# Tries the wrong rules of tools/mutants: each is a patch that changes a definition and the code that meets it alike, so that no
# proof can refuse it, and some row of the tests must. It proves nothing, and is no part of the gate.
#
# usage: mutants.sh [NAME..]
#
# Without a NAME all are tried. The second line of a patch says what catches it: modules of hand_tests, deed_tests or play_tests,
# cases of riichi_cases, or the records in such cases, which mj_replay has to take. Several are built into one program: beside
# each crate that a patch changes stands its changed copy, with copies of the crates and the test modules that use it. A line a
# patch says which test or case caught it; the exit code is 0 where each was caught.
cd "$(dirname "$0")/.." || exit 2
exec python3 - "$@" << 'END'
import os, pathlib, re, shutil, subprocess, sys, tempfile

HERE = pathlib.Path.cwd()
AT_ONCE = {"hand_tests": 40, "deed_tests": 7, "play_tests": 7, "records": 7}


def run(words, **how):
    return subprocess.run(words, capture_output=True, text=True, errors="replace", **how)


class Mutant:
    def __init__(self, number, file):
        self.name, self.file = file.stem, file
        self.mark = f"m{number}"
        head = file.read_text().split("\n", 2)[1]
        self.tests, by = re.fullmatch(r"caught by (\w+): (.+)", head).groups()
        self.by = by.split()
        self.beside = set()
        changed = re.findall(r"(?m)^\+\+\+ b/crates/(\w+)/src/", file.read_text())
        self.crates = sorted(set(changed))
        self.caught = None


def tree_at(folder):
    """The repository's files, as they stand, without what was built."""
    files = run(["git", "ls-files", "-co", "--exclude-standard", "crates", "crates.txt", "HANDLES"]).stdout
    for name in files.split("\n"):
        if name and (HERE / name).exists():
            to = folder / name
            to.parent.mkdir(parents=True, exist_ok=True)
            shutil.copy(HERE / name, to)


def patch(folder, mutant, *words):
    done = run(["patch", "-p1", "-s", "-f", *words, "-i", mutant.file.resolve()], cwd=folder)
    if done.returncode:
        sys.exit(f"{mutant.name}: the patch doesn't apply\n{done.stdout}{done.stderr}")


def crates_of(folder):
    """Of each crate the words of its line behind the colon."""
    lines = (folder / "crates.txt").read_text().split("\n")
    parts = [line.split("#")[0].partition(":") for line in lines]
    return {head.split()[0]: tail.split() for head, colon, tail in parts if colon}


def below(crates, name):
    found = set()
    for other in crates.get(name, []):
        found |= {other} | below(crates, other)
    return found


def renamed(text, names, modules, mark):
    for name in names:
        text = re.sub(rf"\b{name}\b", f"{name}_{mark}", text)
    for name in modules:
        text = re.sub(rf"\bcrate::{name}\b", f"crate::{mark}_{name}", text)
    return text


def modules_below(tests, names):
    """The texts of those modules of a test crate and of all that they stand on."""
    texts, open_ones = {}, list(names)
    while open_ones:
        module = open_ones.pop()
        if module not in texts:
            texts[module] = (tests / "src" / f"{module}.rt").read_text()
            open_ones += re.findall(r"\bcrate::(\w+)::", texts[module])
    return texts


def crates_in(text):
    """The crates that a text uses, of the product and of the tests."""
    return set(re.findall(r"(?m)^use ((?:mj|test)_\w+)::", text))


def stand_beside(folder, crates, mutant, changed):
    """Puts the changed crates of a mutant, those that its tests use over them, and its test modules beside the others."""
    tests = folder / "crates" / mutant.tests
    texts = modules_below(tests, mutant.by)
    used = crates_in("\n".join(texts.values()))
    near = used | set().union(*(below(crates, name) for name in used))
    names = {name for name in near if name in mutant.crates or below(crates, name) & set(mutant.crates)}
    for name in sorted(names):
        copy = folder / "crates" / f"{name}_{mutant.mark}"
        shutil.copytree(changed / "crates" / name, copy)
        shutil.rmtree(copy / "must-fail", ignore_errors=True)
        for file in copy.rglob("*"):
            if file.suffix in (".rt", ".antt"):
                file.write_text(renamed(file.read_text(), names, [], mutant.mark))
    mutant.beside = set(mutant.by) | {module for module, text in texts.items() if crates_in(text) & names}
    for module in mutant.beside:
        (tests / "src" / f"{mutant.mark}_{module}.rt").write_text(renamed(texts[module], names, mutant.beside, mutant.mark))
    return {f"{name}_{mutant.mark}": [f"{it}_{mutant.mark}" if it in names else it for it in crates[name]] for name in names}


def only_needed(tests, mutants):
    """Leaves those modules of a test crate that the mutants' ones stand on, names the copies, and gives the crates that they use."""
    texts = modules_below(tests, [module for mutant in mutants for module in mutant.by])
    kept, used = set(texts), crates_in("\n".join(texts.values()))
    for file in (tests / "src").iterdir():
        if file.stem not in kept | {"lib"} and not re.match(r"m\d+_", file.stem):
            file.unlink()
    kept |= {f"{mutant.mark}_{module}" for mutant in mutants for module in mutant.beside}
    lines = "".join(f"#[cfg(test)]\nmod {module};\n" for module in sorted(kept))
    (tests / "src" / "lib.rt").write_text("//! Tests of changed crates.\n#![tactic(auto)]\n\n" + lines)
    return sorted(used)


RECORD = """#[test]
fn {name}(rt: HostRuntime) {{
    assert!(rt; matches!(check(rt.alloc(), RECORDS[{place}].as_bytes()), Checked::Good(_)));
}}
"""


def records_in(case):
    """The records of a case that are taken."""
    parts = [part.partition("\n") for part in case.rstrip("\n").split("\n-- ")[1:]]
    pairs = zip(parts, parts[1:])
    return [text + "\n" for (head, _, text), (then, _, _) in pairs if head == "input" and then == "replay"]


def write_records(folder, mutants):
    """A crate of tests that let mj_replay check the records of each mutant's cases."""
    tests = folder / "crates/records"
    (tests / "src").mkdir(parents=True)
    for mutant in mutants:
        texts, lines = [], ""
        for case in mutant.by:
            for record in records_in((folder / "crates/riichi_cases/data" / case).read_text()):
                lines += "\n" + RECORD.format(name=f"{case}_{len(texts)}", place=len(texts))
                texts.append('"' + record.replace("\\", "\\\\").replace('"', '\\"').replace("\n", "\\n") + '"')
        head = f"use mj_replay::{{Checked, check}};\n\nconst RECORDS: [&str; {len(texts)}] = [{', '.join(texts)}];\n"
        (tests / "src" / f"of_{mutant.mark}.rt").write_text(head + lines)
        mutant.by = [f"of_{mutant.mark}"]
    text = (folder / "crates.txt").read_text()
    (folder / "crates.txt").write_text(text + "records: mj_replay\n")


def try_together(mutants):
    with tempfile.TemporaryDirectory(prefix="mutants-") as folder:
        tree, changed = pathlib.Path(folder) / "tree", pathlib.Path(folder) / "changed"
        tree_at(tree)
        tree_at(changed)
        if mutants[0].tests == "records":
            write_records(tree, mutants)
        crates = crates_of(tree)
        tests = tree / "crates" / mutants[0].tests
        more = {}
        for mutant in mutants:
            patch(changed, mutant)
            more |= stand_beside(tree, crates, mutant, changed)
            patch(changed, mutant, "-R")
        used = only_needed(tests, mutants)
        text = (tree / "crates.txt").read_text()
        text = re.sub(rf"(?m)^{tests.name}:.*$", f"{tests.name}: {' '.join([*used, *more])}", text)
        (tree / "crates.txt").write_text(text + "".join(f"{name}: {' '.join(rest)}\n" for name, rest in more.items()))
        tried = run(["rt", "try", "--test"], cwd=tests)
        said = tried.stdout + tried.stderr
    if not re.search(r"(?m)^test result: ", said):
        sys.exit(f"not built: {said[-3000:]}")
    wrong = re.findall(r"(?m)^test (?!m\d+_)(\S+) \.\.\. FAILED", said)
    if wrong:
        sys.exit(f"{mutants[0].tests} fails without a change: {' '.join(wrong)}")
    for mutant in mutants:
        mutant.caught = re.findall(rf"(?m)^test ({mutant.mark}_\S+) \.\.\. FAILED", said)


def try_cases(mutant):
    with tempfile.TemporaryDirectory(prefix="mutants-") as folder:
        tree = pathlib.Path(folder)
        tree_at(tree)
        patch(tree, mutant)
        data = [word for case in mutant.by for word in ("--data", f"{case}=data/{case}")]
        tried = run(["rt", "try", *data, "--", *mutant.by], cwd=tree / "crates/riichi_cases")
    said = tried.stdout + tried.stderr
    told = re.findall(r"(?m)^(\w+): (.*)$", tried.stdout)
    if not {case for case, _ in told} & set(mutant.by):
        sys.exit(f"{mutant.name}: not built: {said[-3000:]}")
    mutant.caught = [case for case, verdict in told if case in mutant.by and verdict != "ok"]


def say(mutants):
    for mutant in mutants:
        caught = "caught by " + ", ".join(mutant.caught) if mutant.caught else "NOT CAUGHT"
        print(f"{mutant.name}: {re.sub(rf'{mutant.mark}_(of_{mutant.mark}::)?', '', caught)}", flush=True)


names = sys.argv[1:]
files = sorted((HERE / "tools/mutants").glob("*.patch"))
unknown = set(names) - {file.stem for file in files}
if unknown:
    sys.exit(f"no such patch: {' '.join(sorted(unknown))}")
chosen = [Mutant(number, file) for number, file in enumerate(files) if not names or file.stem in names]
for tests, most in AT_ONCE.items():
    group = [mutant for mutant in chosen if mutant.tests == tests]
    for first in range(0, len(group), most):
        part = group[first : first + most]
        try_together(part)
        say(part)
for mutant in chosen:
    if mutant.tests == "riichi_cases":
        try_cases(mutant)
        say([mutant])
caught = sum(bool(mutant.caught) for mutant in chosen)
print(f"{caught} of {len(chosen)} caught")
sys.exit(caught != len(chosen))
END
