#!/usr/bin/env python3
"""Writes the part of docs/CONTRACTS.md that comes from the sources, and looks for names in the pages that lead nowhere.

  docs/pages.py           writes the part of docs/CONTRACTS.md below its mark anew
  docs/pages.py --check   changes nothing: ends with 1 if that part is not what the sources give, if a page names a path, a crate, a test, a
                          function or a definition that does not exist, or if a count in a page is wrong
"""
import re
import sys
from pathlib import Path

TOP = Path(__file__).resolve().parent.parent
PAGE = TOP / "docs/CONTRACTS.md"
MARK = "<!-- What follows is written by docs/pages.py from the sources. Change it there. -->"
ITEM = r"pub (?:unsafe )?(fn|struct|enum|trait|type|const) "


def crates():
    """The crates in the order of crates.txt, by name."""
    lines = (line.split("#")[0].partition(":")[0].split() for line in (TOP / "crates.txt").read_text().splitlines())
    return [words[0] for words in lines if words]


def sources(crate):
    """The files of a crate's code by module, as `laws` or `rules::sizes`."""
    src = TOP / "crates" / crate / "src"
    return {"::".join(path.relative_to(src).with_suffix("").parts): path.read_text().splitlines() for path in sorted(src.rglob("*.rt"))}


def comment_above(lines, at):
    """The doc comment above a line, as one text."""
    at -= 1
    while at >= 0 and lines[at].lstrip().startswith("#["):
        at -= 1
    text = []
    while at >= 0 and lines[at].lstrip().startswith("///"):
        text.insert(0, lines[at].lstrip()[3:].strip())
        at -= 1
    return text


def first_sentence(text):
    """The first sentence of the first paragraph."""
    paragraph = " ".join(text[: text.index("")] if "" in text else text)
    return re.split(r"(?<=[.!?]) (?=[A-Z`\[])", paragraph)[0].replace("|", "\\|")


def clauses(lines, at):
    """The names of the clauses of a function: what it requires, what it ensures; and whether it has no body, as a law."""
    found = {"requires": [], "ensures": []}
    indent = len(lines[at]) - len(lines[at].lstrip())
    for line in lines[at:]:
        clause = re.match(r"\s+(requires|ensures)\*? ?(\w+)? ?\{", line)
        if clause:
            found[clause[1]].append(clause[2] or "")
        if re.match(rf"\s{{{indent}}}\{{", line) or line.rstrip().endswith(";") or re.search(r"\)[^{{]* \{$", line) and not clause:
            return found, line.strip() == "{}"
        if line.strip() == "{}":
            return found, True
    return found, False


def clause_text(found):
    """What is required and what is ensured, by the names of the clauses, as two cells of a table; `yes` is a clause without a name."""
    def named(kind):
        names = [f"`{name}`" for name in found[kind] if name]
        return ", ".join(names) if names else "yes" if found[kind] else ""
    return f"{named('requires')} | {named('ensures')}"


def functions_of(lines, name):
    """The public methods of a type, or the methods of a trait: each with its line."""
    inside = False
    for at, line in enumerate(lines):
        if re.match(rf"impl(?:<.*?>)? {name}\b", line) or re.match(rf"pub trait {name}\b", line):
            inside = True
            method = r"    fn (\w+)" if line.startswith("pub trait") else r"    pub fn (\w+)"
        elif line.startswith("}"):
            inside = False
        found = inside and re.match(method, line)
        if found:
            yield found[1], at


def rows_of(crate):
    """The public items of a crate: module, kind, name, comment, clauses."""
    files = sources(crate)
    root = files.get("lib", [])
    text = "\n".join(root)
    wanted = [("lib", name) for name in re.findall(rf"(?m)^{ITEM}(\w+)", text) for name in [name[1]]]
    for module, group, alone in re.findall(r"(?m)^pub use (\w+)::(?:\{([^}]*)\}|(\w+));", text):
        if module in files or any(it.startswith(module + "::") for it in files):
            wanted += [(module, name.strip()) for name in (group or alone).split(",") if name.strip()]
    for module in re.findall(r"(?m)^pub mod (\w+);", text):
        wanted += [(module, it[1]) for line in files.get(module, []) for it in [re.match(rf"{ITEM}(\w+)", line)] if it for it in [(0, it[2])]]
    for module, name in wanted:
        for path, lines in files.items():
            if path != module and not path.startswith(module + "::"):
                continue
            for at, line in enumerate(lines):
                item = re.match(rf"{ITEM}{name}\b", line)
                if item:
                    yield crate, item[1], name, comment_above(lines, at), lines, at
    return


def table_of(crate):
    """The part of the page about a crate."""
    root = sources(crate).get("lib") or sources(crate).get("main")
    head = [line[3:].strip() for line in root if line.startswith("//!")]
    yield f"### `{crate}`"
    yield ""
    yield " ".join(head[: head.index("")] if "" in head else head)
    rows = []
    for _, kind, name, text, lines, at in rows_of(crate):
        found, is_law = clauses(lines, at) if kind == "fn" else ({"requires": [], "ensures": []}, False)
        rows.append((f"`{name}`" + (" (law)" if is_law else ""), first_sentence(text), clause_text(found)))
        if kind in ("struct", "enum", "trait"):
            for method, place in functions_of(lines, name):
                found, _ = clauses(lines, place)
                rows.append((f"`{name}::{method}`", first_sentence(comment_above(lines, place)), clause_text(found)))
    if rows:
        yield ""
        yield "| Item | What it is or does | Requires | Ensures |"
        yield "|---|---|---|---|"
        yield from (f"| {name} | {text} | {names} |" for name, text, names in rows)
    yield ""


def generated():
    """The part of the page below its mark."""
    libraries = [name for name in crates() if not name.startswith("rows_") and (TOP / "crates" / name / "src/lib.rt").exists()]
    return MARK + "\n\n" + "\n".join(line for name in libraries for line in table_of(name))


# ---- names in the pages

def pages():
    """The pages that a reader sees, each with its text."""
    listed = [TOP / "README.md", *sorted(TOP.glob("*.md")), *sorted((TOP / "docs").glob("*.md")), TOP / "examples/README.md"]
    return {path: path.read_text() for path in dict.fromkeys(listed)}


def words_of_sources():
    """Every word of the code, its definitions and its proofs, of the scripts and of the toolchain's pages that the pages name."""
    words = set()
    for path in [*TOP.glob("crates/*/src/**/*.rt"), *TOP.glob("crates/*/specs/**/*.antt"), *TOP.glob("crates/*/must-fail/*.edit"), *TOP.glob("crates/*/proofs/*.antt")]:
        words.update(re.findall(r"[\w']+", path.read_text()))
        words.add(path.stem)
    for name in ("crates.txt", "demo", "tests", "install", "measure", "try_edge", "examples/put", "examples/take", "docs/pages.py", "docs/pictures/draw.py", ".ci/run"):
        if (TOP / name).exists():
            words.update(re.findall(r"[\w']+", (TOP / name).read_text()))
    return words


def faults():
    """What is wrong with the pages, line by line."""
    if not PAGE.read_text().endswith(generated()):
        yield "docs/CONTRACTS.md: the part below the mark is not what the sources give: run docs/pages.py"
    words = words_of_sources()
    listed = crates()
    files = {path.name for path in TOP.rglob("*") if path.suffix in (".rt", ".antt", ".py", ".svg", ".md", ".edit", ".script", ".report") and "/out/" not in str(path)}
    edits = len(list(TOP.glob("crates/*/must-fail/*.edit")))
    tests = sum(len(re.findall(r"(?m)^\s*#\[test\]", path.read_text())) for path in TOP.glob("crates/*/src/**/*.rt"))
    counts = {"crates": len(listed), "must-fail edits": edits, "tests of crates": tests}
    for path, text in pages().items():
        name = path.relative_to(TOP)
        for number, line in enumerate(text.splitlines(), 1):
            if text.startswith("# A session") and line.startswith("$"):
                continue
            for target in re.findall(r"\]\(([^)#]+?)(?:#[^)]*)?\)", line):
                if not re.match(r"\w+:", target) and not (path.parent / target).exists():
                    yield f"{name}:{number}: no file {target}"
            for word in re.findall(r"`([^`\s]+)`", line):
                if re.fullmatch(r"[\w/]+\.(rt|antt|py|svg|md|edit|script|report)", word) and word.split("/")[-1] not in files:
                    yield f"{name}:{number}: no file {word}"
                elif re.fullmatch(r"crates/\w+(/.*)?", word) and not (TOP / word).exists():
                    yield f"{name}:{number}: no path {word}"
                elif re.fullmatch(r"\w+(::\w+)+", word) and not all(part in words or part in listed for part in word.split("::")) and not word.startswith("std::"):
                    yield f"{name}:{number}: no {word} in the sources"
                elif re.fullmatch(r"[a-z][a-z0-9]*(_[a-z0-9]+)+|[A-Z][a-z0-9]+([A-Z][a-z0-9]*)+", word) and word not in words and word not in listed:
                    yield f"{name}:{number}: no {word} in the sources"
            for number_of, what in re.findall(r"\b(\d[\d,]*) (crates|must-fail edits|tests of crates)\b", line):
                if int(number_of.replace(",", "")) != counts[what] and name.name != "CHANGELOG.md":
                    yield f"{name}:{number}: {number_of} {what}, and there are {counts[what]}"


def main(words):
    if words == ["--check"]:
        found = list(faults())
        print("\n".join(found) if found else "pages: all names lead somewhere")
        return 1 if found else 0
    if words:
        print(__doc__)
        return 2
    by_hand = PAGE.read_text().split(MARK)[0].rstrip("\n")
    PAGE.write_text(by_hand + "\n\n" + generated())
    return 0


if __name__ == "__main__":
    sys.exit(main(sys.argv[1:]))
