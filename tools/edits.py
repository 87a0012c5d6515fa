#!/usr/bin/env python3
"""Tries the wrong bodies that stand under edits/ and aren't in the gate.

    tools/edits.py NAME..      tries the edits of these crates (edits/NAME and crates/NAME/must-fail), each as a must-fail edit on a copy
                               of the repository, and says which are refused, which prove and which don't apply
    tools/edits.py --check     proves nothing: fails where an edit doesn't apply, that is, where its text to replace doesn't stand
                               exactly once in its file, or where more than MOST stand in the gate

An edit is a file with lines 'file: PATH', PATH below the crate's folder, each with pairs of lines 'old: TEXT' and 'new: TEXT'. The
gate tries those in crates/NAME/must-fail; whoever changes a crate's contracts tries the others too. One under edits/ may change other
crates besides, by a PATH that begins with ../CRATE/: so do pairs of a wrong definition and a wrong body below a law of this crate. These
other crates are checked with it first, and then this one; the line says which of them refuses it. The status is 0 where each edit is
refused, or applies.
"""
import glob
import os
import re
import shutil
import subprocess
import sys
import tempfile

TOP = os.path.dirname(os.path.dirname(os.path.realpath(__file__)))
# How many edits may stand in the gate: each costs it a check, and the first of a crate one more proof of that crate.
MOST = 60


def edits_of(name):
    """The paths of a crate's edits, those of the gate first."""
    return sorted(glob.glob(f"{TOP}/crates/{name}/must-fail/*.edit")) + sorted(glob.glob(f"{TOP}/edits/{name}/*.edit"))


def applied(path, name):
    """The texts that an edit of a crate leaves, by their paths below crates/, and why it doesn't apply, or None. Each pair applies to what the
    earlier ones made of the file named last."""
    with open(path, encoding="utf-8") as file:
        lines = file.read().split("\n")
    of, old, texts, was = None, None, {}, {}
    for line in lines:
        if line.startswith("file: "):
            of = os.path.normpath(f"{name}/{line[len('file: ') :].strip()}")
        elif line.startswith("old: "):
            old = line[len("old: ") :]
        elif line.startswith("new:"):
            if of is None or old is None:
                return {}, "a line 'new:' stands before any 'file:' or 'old:'"
            if of not in texts:
                if not os.path.isfile(f"{TOP}/crates/{of}"):
                    return {}, f"there is no {of}"
                with open(f"{TOP}/crates/{of}", encoding="utf-8") as file:
                    texts[of] = was[of] = file.read()
            if texts[of].count(old) != 1:
                return {}, f"its text stands {texts[of].count(old)} times in {of}: {old.strip()[:80]}"
            texts[of] = texts[of].replace(old, line[len("new:") :].removeprefix(" "))
            old = None
    return texts, None if texts != was else "it changes nothing"


def others_of(path, name):
    """The other crates that an edit of this one changes, the lower ones first."""
    changed = {of.split("/")[0] for of in applied(path, name)[0]}
    with open(f"{TOP}/crates.txt", encoding="utf-8") as file:
        order = [line.split(":")[0].split()[0] for line in file if ":" in line.split("#")[0]]
    return [it for it in order if it in changed and it != name]


def check():
    names = sorted({*os.listdir(f"{TOP}/edits"), *(it.split("/")[-2] for it in glob.glob(f"{TOP}/crates/*/must-fail"))})
    faults, count = [], 0
    for name in names:
        for path in edits_of(name):
            count += 1
            why = applied(path, name)[1]
            if why:
                faults.append(f"{os.path.relpath(path, TOP)}: {why}")
    in_gate = len(glob.glob(f"{TOP}/crates/*/must-fail/*.edit"))
    if in_gate > MOST:
        faults.append(f"{in_gate} edits stand in the gate, more than {MOST}")
    for fault in faults:
        print(fault, file=sys.stderr)
    print(f"{count} edits, {in_gate} of them in the gate: {len(faults)} faults")
    return 1 if faults else 0


def copied(room):
    """Copies what a check reads, without what earlier checks left."""
    shutil.copytree(f"{TOP}/crates", f"{room}/crates", ignore=shutil.ignore_patterns("out", "must-fail"))
    for file in ("crates.txt", "HANDLES"):
        shutil.copy(f"{TOP}/{file}", f"{room}/{file}")


def attempt_wide(name, path):
    """Tries an edit that changes other crates too, on a copy of its own: these are checked with it, and then this one. Says which refuses it, if one does."""
    with tempfile.TemporaryDirectory(prefix="edits-") as room:
        copied(room)
        for of, text in applied(path, name)[0].items():
            with open(f"{room}/crates/{of}", "w", encoding="utf-8") as file:
                file.write(text)
        for crate in others_of(path, name) + [name]:
            ran = subprocess.run(["rt", "check"], cwd=f"{room}/crates/{crate}", stdin=subprocess.DEVNULL, stdout=subprocess.PIPE, stderr=subprocess.STDOUT, text=True)
            if ran.returncode:
                if "logic=not-proved" not in ran.stdout:
                    return f"NOT TRIED: the check of {crate} ended with status {ran.returncode}"
                first = next((it for it in ran.stdout.split("\n") if re.match(r"\S+:\d+:\d+: error", it)), "")
                return f"refused in {crate}: {first}"
    return "PROVES"


def attempt(name):
    """Tries a crate's edits, prints a line for each, and returns how many aren't refused."""
    every = edits_of(name)
    paths = [path for path in every if not others_of(path, name)]
    bad = 0
    for path in every:
        if path not in paths:
            says = attempt_wide(name, path)
            bad += not says.startswith("refused")
            print(f"{name}/{os.path.basename(path)[: -len('.edit')]}: {says}"[:240], flush=True)
    if not paths:
        print(f"{name}: no edits" if not every else f"{name}: no edits of this crate alone")
        return bad
    with tempfile.TemporaryDirectory(prefix="edits-") as room:
        copied(room)
        os.makedirs(f"{room}/crates/{name}/must-fail")
        for path in paths:
            shutil.copy(path, f"{room}/crates/{name}/must-fail/")
        # The check first: the edits begin with what it keeps.
        first = subprocess.run(["rt", "check"], cwd=f"{room}/crates/{name}", stdin=subprocess.DEVNULL, capture_output=True, text=True)
        if first.returncode:
            print(f"{name}: it isn't proved as it stands:\n{first.stdout[-2000:]}", file=sys.stderr)
            return bad + len(paths)
        tried = subprocess.run(["rt", "must-fail", name], cwd=room, stdin=subprocess.DEVNULL, capture_output=True, text=True)
    told = {}
    for line in (tried.stdout + tried.stderr).split("\n"):
        it = re.match(rf"(?:rt: )?must-fail {name}/(\S+?)\.edit: (.*)", line)
        if it:
            told[it[1]] = it[2]
    for path in paths:
        edit = os.path.basename(path)[: -len(".edit")]
        says = told.get(edit, "no word of it")
        word = "refused" if says.startswith("refused") else "PROVES" if says.startswith("NOT REFUSED") else "DOESN'T APPLY" if says.startswith("BAD") else "NOT TRIED"
        bad += word != "refused"
        print(f"{name}/{edit}: {word}{says[len('refused, as it must be'):] if word == 'refused' else ': ' + says}"[:240])
    return bad


def main():
    names = sys.argv[1:]
    if names == ["--check"]:
        return check()
    if not names or any(it.startswith("-") for it in names):
        print(__doc__, file=sys.stderr)
        return 2
    for name in names:
        if not os.path.isdir(f"{TOP}/crates/{name}"):
            print(f"tools/edits.py: there is no crate {name}", file=sys.stderr)
            return 2
    bad = sum(attempt(name) for name in names)
    print(f"{bad} not refused")
    return 1 if bad else 0


sys.exit(main())
