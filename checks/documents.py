"""The checks of the documents: that what they name is there.

    crates    each crate of crates.txt has its row in the table of docs/DESIGN.md, in the order of crates.txt
    claims    each crate of crates.txt has one section of docs/CLAIMS.md with the crate in its title, which begins with what is proved
              of the crate, and no section is of another crate; that of the top call comes first, the others in the order of crates.txt
    README    README.md has fewer than 7,000 bytes
    edits     each must-fail edit of a crate is named in the section of docs/CLAIMS.md that has the crate in its title, in the
              last column, and each that is named there is one
    files     each file of a crate that docs/DESIGN.md, docs/RULES-OF-MPI.md, docs/CLAIMS.md or CONTRIBUTING.md names is there
    words     each reason of a finding is explained in docs/FINDINGS.md
    links     each file that a document links to is there
"""
import glob
import os
import re

from cases import TOP

TOP_CALL = "rma_audit"


def text_of(name):
    with open(f"{TOP}/{name}", encoding="utf-8") as file:
        return file.read()


def crates():
    return re.findall(r"^(\w+)(?: \w+)?:", text_of("crates.txt"), re.M)


def crates_have_their_rows():
    wanted, name = crates(), "docs/DESIGN.md"
    found = [it for it in re.findall(r"^\| `(rma_\w+)` \|", text_of(name), re.M) if it in wanted]
    if found != wanted:
        return f"{name} has the rows {' '.join(found)}, and the crates are {' '.join(wanted)}"
    return None


def claims():
    """The sections of docs/CLAIMS.md that are of a crate: the crate, and what stands behind the title."""
    for section in re.split(r"^## ", text_of("docs/CLAIMS.md"), flags=re.M)[1:]:
        title, _, body = section.partition("\n")
        crate = re.search(r"`(rma_\w+)", title)
        if crate:
            yield crate[1], body


def crates_have_their_claims():
    wanted, sections = crates(), list(claims())
    there = [crate for crate, _ in sections]
    found = [f"{it} has {there.count(it)} sections" for it in wanted if there.count(it) != 1]
    found += [f"{it} is no crate" for it in there if it not in wanted]
    found += [f"{it} does not begin with what is proved" for it, body in sections if not body.startswith("\n- **Proved:** ")]
    in_order = [TOP_CALL] + [it for it in wanted if it != TOP_CALL]
    if not found and there != in_order:
        found = [f"the sections are of {' '.join(there)}, and have to be of {' '.join(in_order)}"]
    return "; ".join(found) or None


def readme_is_short():
    size = len(text_of("README.md").encode())
    return None if size < 7_000 else f"README.md has {size} bytes"


def edits_of(crate):
    return {os.path.basename(it).removesuffix(".edit") for it in glob.glob(f"{TOP}/crates/{crate}/must-fail/*.edit")}


def edits_named_in(section):
    rows = [line.strip().strip("|").split("|") for line in section.splitlines() if line.startswith("|")]
    return {it for row in rows for it in re.findall(r"`(\w[\w-]*)`", row[-1]) if not it.startswith("rma_")}


def edits_are_named():
    named = {}
    for crate, section in claims():
        named.setdefault(crate, set()).update(edits_named_in(section))
    found = []
    for crate in crates():
        here, there = named.get(crate, set()), edits_of(crate)
        found += [f"{crate}: {it} is not named" for it in sorted(there - here)]
        found += [f"{crate}: {it} is not there" for it in sorted(here - there)]
    return "; ".join(found) or None


def files_are_there():
    """A path is written whole, and names of files of the same folder may follow it: `rma_lex/specs/Line.antt`, `Text.antt`."""
    found = []
    for name in ("docs/DESIGN.md", "docs/RULES-OF-MPI.md", "docs/CLAIMS.md", "CONTRIBUTING.md"):
        folder = "crates"
        for path in re.findall(r"`([\w/]+\.(?:antt|rt)|rma_\w+/specs/)`", text_of(name)):
            if path in ("lib.rt", "Lib.antt"):
                continue
            if "/" in path:
                path = f"crates/{path.removeprefix('crates/')}"
                folder = os.path.dirname(path)
            else:
                path = f"{folder}/{path}"
            if not os.path.exists(f"{TOP}/{path}"):
                found.append(f"{name} names {path}")
    return "; ".join(found) or None


def reasons():
    """The words of all reasons of findings."""
    files = (it for name in ("*reason.rt", "rule.rt", "assertion.rt") for it in glob.glob(f"{TOP}/crates/*/src/{name}"))
    for path in sorted(files):
        yield from re.findall(r'=> "(\w+)"', text_of(os.path.relpath(path, TOP)))


def words_are_explained():
    text = text_of("docs/FINDINGS.md")
    found = [f"docs/FINDINGS.md does not explain {it}" for it in reasons() if not re.search(rf"\b{it}\b", text)]
    return "; ".join(found) or None


def links_lead_somewhere():
    for path in sorted(glob.glob(f"{TOP}/*.md") + glob.glob(f"{TOP}/*/*.md")):
        name = os.path.relpath(path, TOP)
        for link in re.findall(r"\]\(([^)#]+)\)", text_of(name)):
            if not os.path.exists(f"{TOP}/{os.path.dirname(name)}/{link}"):
                return f"{name} links to {link}"
    return None


CHECKS = (
    ("documents: reasons are explained", words_are_explained),
    ("documents: crates have their rows", crates_have_their_rows),
    ("documents: crates have their claims", crates_have_their_claims),
    ("documents: README is short", readme_is_short),
    ("documents: edits are named", edits_are_named),
    ("documents: files are there", files_are_there),
    ("documents: links lead somewhere", links_lead_somewhere),
)
