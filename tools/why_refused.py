#!/usr/bin/env python3
"""Tries each must-fail edit, and holds what the prover said of it to more than that it was refused.

usage: tools/why_refused.py [NAME..]        at the top of the repository; NAME is a crate, and without one all are tried

An edit is telling where the first thing that the prover said of it is that a fact fails: 'it is not proved that ..', or an error in
a proof's type. It shows nothing where it only made the proof file unfit for the code: a name, a field or a goal is gone, the file is
no longer read, a loop's invariant or measure has another form, or a fact stands where another thing is asked for.

An edit may change several functions, since each is proved by itself, against its own contract and its callees' contracts. It then
names them ('# each in: ..'), and each must be refused in its own proof: an error in its own proof file, or, where the prover needs no
answer, goals that it did not prove. Where a callee that is refused too keeps the prover from a function, the function's own changes
are tried by themselves.

`rt ci` tries the same edits and keeps one line of each, which is too little for this. What the prover said stays in
target/must-fail/NAME/EDIT.log.
"""

import concurrent.futures
import os
import queue
import re
import shutil
import subprocess
import sys
import tempfile

LOGS = "target/must-fail"
ERROR = re.compile(r"(?:\./)?(\S+?)(?::\d+)*: error(?:\[[\w-]+\])?: (.*)")
OPEN = re.compile(r"note: (\S+):\d+:\d+: it is not proved that ")
OF_A_PROOF = re.compile(r"`[^`]*`: (.*)")
# The proof no longer fits the code.
UNFIT = re.compile(
    r"that can be named from here|is not in scope|has no field|has no `|is not a field of record|is no name|was not admitted"
    r"|which was rejected|types\.Run\.OneOf|this has type `[^`]*(\bGoals\.|\bGiven\.|tie\.Need-)"
)
# So many edits are tried at once: as RT_JOBS says, which `rt ci` heeds too, or as processors and memory allow.
MEMORY = os.sysconf("SC_PHYS_PAGES") * os.sysconf("SC_PAGE_SIZE")
JOBS = int(os.environ.get("RT_JOBS") or max(1, min(4, len(os.sched_getaffinity(0)), MEMORY // 3_000_000_000)))


def fail(why):
    print(f"why_refused: {why}", file=sys.stderr, flush=True)
    sys.exit(1)


def read(path):
    with open(path, encoding="utf-8") as f:
        return f.read()


def write(path, text):
    os.makedirs(os.path.dirname(path), exist_ok=True)
    with open(path, "w", encoding="utf-8") as f:
        f.write(text)


def crates():
    """The crates, lowest first, each with all that it stands on."""
    below = {}
    for line in read("crates.txt").splitlines():
        name, colon, of = line.partition("#")[0].partition(":")
        if colon:
            below[name.split()[0]] = of.split()
    names = []

    def put(name):
        if name in below and name not in names:
            for it in below[name]:
                put(it)
            names.append(name)

    for name in below:
        put(name)
    return names


def pairs(edit):
    """What the edit changes: the file, and the old and the new text of each line."""
    path = old = None
    found = []
    for line in read(edit).split("\n"):
        if line.startswith("file: "):
            path = line[len("file: ") :].strip()
        elif line.startswith("old: "):
            old = line[len("old: ") :]
        elif line.startswith("new:"):
            found.append((path, old, re.sub(r"\A ", "", line[len("new:") :])))
    return found


def edited(name, changes):
    """The texts of the files that the changes are in, or nothing where one does not fit."""
    texts = {}
    for path, old, new in changes:
        texts.setdefault(path, read(f"crates/{name}/{path}"))
        if texts[path].count(old) != 1:
            return None
        texts[path] = texts[path].replace(old, new)
    return texts


def own_changes(name, function, changes):
    """Those of the changes that stand in the function, as the ones before them left it, and all that stand in no source file."""
    *modules, last = function.split("/")
    # A method stands in its module's file, below its type's name.
    paths = ["/".join(modules), "/".join(modules[:-1]) or "lib", "lib", "main"]
    file = next(it for it in (f"src/{path}.rt" for path in paths) if os.path.isfile(f"crates/{name}/{it}"))
    body = re.compile(rf"^( *)(?:pub(?:\(\w+\))? )?(?:extern \"C\" )?fn {re.escape(last)}\b.*?^\1\}}", re.M | re.S)
    text, found = read(f"crates/{name}/{file}"), []
    for path, old, new in changes:
        own = body.search(text)
        if not path.startswith("src/") or path == file and own and old in own[0]:
            found.append((path, old, new))
        if path == file:
            text = text.replace(old, new)
    return found


def link_or_copy(one, other):
    """rt replaces the files of a library and what a check kept of an .antt file, and never writes into them."""
    if one.endswith(".oantt") or "/out/rlib/" in one:
        try:
            return os.link(one, other)
        except OSError:
            pass
    return shutil.copy2(one, other)


def lay_out(room):
    """Copies the crates with what their checks kept."""
    os.makedirs(room)
    shutil.copyfile("crates.txt", f"{room}/crates.txt")
    for name in crates():
        for part in ("src", "specs", "proofs", "out/rlib"):
            if os.path.isdir(f"crates/{name}/{part}"):
                shutil.copytree(f"crates/{name}/{part}", f"{room}/crates/{name}/{part}", copy_function=link_or_copy)


def check(room, name, texts):
    """What the prover says of the crate with these texts in the place of its own, and the status."""
    folder = f"{room}/crates/{name}"
    kept = f"{folder}/out/incremental"
    shutil.rmtree(kept, ignore_errors=True)
    shutil.copytree(f"crates/{name}/out/incremental", kept, copy_function=link_or_copy)
    for path, text in texts.items():
        write(f"{folder}/{path}", text)
    try:
        ran = subprocess.run(
            ["rt", "check", "--jobs", "1"],
            cwd=folder, stdin=subprocess.DEVNULL, stdout=subprocess.PIPE, stderr=subprocess.STDOUT, errors="replace",
        )
    finally:
        for path in texts:
            write(f"{folder}/{path}", read(f"crates/{name}/{path}"))
    return ran.stdout.splitlines(), ran.returncode


def is_telling(lines):
    """Whether the first thing said is that a fact fails."""
    for line in lines:
        if OPEN.match(line):
            return True
        error = ERROR.match(line)
        if error:
            said = OF_A_PROOF.match(error[2])
            return bool(said) and not error[1].endswith("/Invariants.antt") and not UNFIT.search(said[1])
    return False


def is_telling_of(name, function, lines):
    """Whether the function is refused, in its own proof, for a fact that fails."""
    path = re.escape(function)
    own = [it for it in lines if re.match(rf"(?:\./)?proofs/{path}/\w+\.antt:\d+:\d+: error: ", it)]
    if own:
        return is_telling(own)
    called = re.escape("::".join([name, *function.split("/")]))
    return any(re.match(rf"fn {called}: no proof: .*`search` did not prove `", it) for it in lines)


def judge(room, name, edit):
    """What is wrong with the edit, if anything."""
    title = os.path.basename(edit)[: -len(".edit")]
    log = f"{LOGS}/{name}/{title}.log"
    changes = pairs(edit)
    texts = edited(name, changes)
    if not texts:
        return f"{edit} does not fit the text"
    lines, status = check(room, name, texts)
    write(log, "\n".join(lines) + "\n")
    if status != 1 or not any(it.startswith("logic=not-proved") for it in lines):
        return f"{edit} was not refused (status {status}); see {log}"
    wrong = [] if is_telling(lines) else ["only because the proof no longer fits the code"]
    named = [it for line in re.findall(r"^# each in: (.*)$", read(edit), re.M) for it in line.split()]
    for function in named:
        if is_telling_of(name, function, lines):
            continue
        own = own_changes(name, function, changes)
        alone = edited(name, own) if own and own != changes else None
        said = check(room, name, alone)[0] if alone else []
        if alone:
            write(f"{LOGS}/{name}/{title}.{function.replace('/', '.')}.log", "\n".join(said) + "\n")
        if not is_telling_of(name, function, said):
            wrong.append(f"for no fact in {function}")
    return f"{edit} was refused {', '.join(wrong)}; see {log}" if wrong else None


def main(names):
    if not os.path.isfile("crates.txt"):
        fail("it runs at the top of the repository")
    every = crates()
    if set(names) - set(every):
        fail(f"crates.txt lists no {' '.join(sorted(set(names) - set(every)))}")
    edits = []
    for name in names or every:
        folder = f"crates/{name}/must-fail"
        found = sorted(os.listdir(folder)) if os.path.isdir(folder) else []
        edits += [(name, f"{folder}/{it}") for it in found if it.endswith(".edit")]
    shutil.rmtree(LOGS, ignore_errors=True)
    # Each edit begins with what a check of the crate as it stands keeps.
    for name in dict.fromkeys(name for name, _ in edits):
        ran = subprocess.run(["rt", "check"], cwd=f"crates/{name}", stdin=subprocess.DEVNULL, stdout=subprocess.PIPE, stderr=subprocess.STDOUT, errors="replace")
        if ran.returncode:
            print(ran.stdout[-3000:])
            fail(f"{name} is not proved as it stands")
    rooms, wrong = queue.Queue(), []
    with tempfile.TemporaryDirectory() as top, concurrent.futures.ThreadPoolExecutor(JOBS) as pool:
        for job in range(JOBS):
            lay_out(f"{top}/{job}")
            rooms.put(f"{top}/{job}")

        def one(name, edit):
            room = rooms.get()
            try:
                return judge(room, name, edit)
            finally:
                rooms.put(room)

        for said in pool.map(one, *zip(*edits)) if edits else ():
            if said:
                wrong.append(said)
                print(f"why_refused: {said}", flush=True)
    if wrong:
        fail(f"{len(wrong)} of the {len(edits)} edits show nothing")
    print(f"each of the {len(edits)} edits was refused because a fact fails")


main(sys.argv[1:])
