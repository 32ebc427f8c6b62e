"""Wrong programs as ./try-slips and ./try-timers read them, and as rt reads those of a crate: a 'file:' holds for the pairs after it, and the 'old:'
text of a pair is in that file once, when the pairs before it are put in. Other lines say nothing to the prover.
Those of a crate, crates/NAME/must-fail/*.edit and crates/NAME/slips/*.slip, name files of that crate; a timer, timers/*.edit, names its files from the
root, and its first line, 'falls: NAME', the crate whose theorem refuses it.
    edits.py fit [NAME...]      which wrong programs of these crates do not fit their sources; with no NAME those of all crates, and all timers
    edits.py falls TIMER        the crate that refuses it
    edits.py changes TIMER      the crates that it changes
    edits.py put TIMER ROOT     puts it into the repository in ROOT"""
import pathlib
import sys

PARTS = ("src", "specs", "proofs")


def is_timer(edit):
    return edit.parent.name == "timers"


def allowed(edit, name):
    parts = pathlib.PurePath(name).parts
    if is_timer(edit):
        return len(parts) > 3 and parts[0] == "crates" and parts[2] in PARTS
    return len(parts) > 1 and parts[0] in PARTS


# The files as the pairs leave them, and what does not fit.
def read(edit, root):
    base = root if is_timer(edit) else root / edit.parent.parent
    name, old, texts, pairs, faults = "", "", {}, 0, []
    for number, line in enumerate(edit.read_text().split("\n"), 1):
        if line.startswith("file: "):
            name = line[6:]
            path = base / name
            if name not in texts and allowed(edit, name) and path.is_file():
                texts[name] = path.read_text()
        elif line.startswith("old: "):
            old = line[5:]
        elif line.startswith("new:"):
            new, pairs = line[4:].removeprefix(" "), pairs + 1
            found = texts.get(name, "").count(old) if old else 0
            if name not in texts:
                faults.append(f"{edit}:{number}: there is no file {name} to change")
            elif found != 1:
                faults.append(f"{edit}:{number}: found {found} times in {name}: {old}")
            elif new == old:
                faults.append(f"{edit}:{number}: changes nothing in {name}: {old}")
            else:
                texts[name] = texts[name].replace(old, new)
            old = ""
    if not pairs:
        faults.append(f"{edit}: has no 'old:' and 'new:' pair")
    return {base / name: text for name, text in texts.items()}, faults


def falls(edit):
    first = edit.read_text().split("\n")[0]
    return first[7:] if first.startswith("falls: ") else ""


def changes(edit):
    return sorted({path.parts[1] for path in read(edit, pathlib.Path())[0]})


def faults(edit):
    if is_timer(edit):
        if edit.suffix != ".edit":
            yield f"{edit}: nothing tries it: it is no timers/*.edit"
        if not falls(edit):
            yield f"{edit}: its first line is no 'falls: NAME'"
    else:
        if (edit.parent.name, edit.suffix) not in (("must-fail", ".edit"), ("slips", ".slip")):
            yield f"{edit}: nothing tries it: it is no must-fail/*.edit or slips/*.slip"
        if edit.suffix == ".slip" and (edit.parent.parent / "must-fail" / f"{edit.stem}.edit").exists():
            yield f"{edit}: there is an .edit of this name"
    yield from read(edit, pathlib.Path())[1]


def fit(names):
    crates = pathlib.Path("crates")
    edits = {path for folder in ("must-fail/*", "slips/*", "*/*.edit", "*/*.slip") for path in crates.glob(f"*/{folder}")}
    edits = {edit for edit in edits if edit.parts[1] in (names or [edit.parts[1]])}
    if not names:
        edits |= set(pathlib.Path("timers").glob("*"))
    fits = misfits = 0
    for edit in sorted(edits):
        wrong = list(faults(edit))
        for fault in wrong:
            print(fault)
        fits, misfits = fits + (not wrong), misfits + bool(wrong)
    print(f"{fits} edits fit, {misfits} do not")
    return misfits > 0


def main(task, *words):
    if task == "fit":
        return fit(words)
    timer = pathlib.Path(words[0])
    if task == "falls":
        print(falls(timer))
    elif task == "changes":
        print(*changes(timer))
    else:
        texts, wrong = read(timer, pathlib.Path(words[1]))
        for fault in wrong:
            print(fault)
        for path, text in texts.items():
            path.write_text(text)
        return bool(wrong)


if __name__ == "__main__":
    sys.exit(main(*sys.argv[1:]))
