#!/usr/bin/env python3
"""Holds the documents against the definitions under crates/.

    python3 docs/tools/definitions.py            checks HEADLINE.md and DEFINITIONS.md; ends with 1 where something differs
    python3 docs/tools/definitions.py --closure  lists what the clauses of `mediate` stand on, by crate and file

HEADLINE.md has to name exactly the definitions that `mediate`'s clauses and the record of each command stand on (and, in
its parts 'Apart', others that exist), each once, with true lines and sums. Each name in DEFINITIONS.md has to stand in the
crate and file that its row says.

A definition is what begins at a line's start in an .antt file; its lines are those with the comment just above it, without
the blank ones. Of a .rt file the structs and enums count, with their comments and attributes.
"""
import os
import re
import sys

ROOT = os.path.dirname(os.path.dirname(os.path.dirname(os.path.abspath(__file__))))
CRATES = os.path.join(ROOT, "crates")
WORD = r"[^\s(){}\[\],;.`]+"
HEAD = re.compile(r"^(?:(?:abbrev|unfoldable|recursive|syntax)\s+)*(?:pub\s+)?(?:(?:record|data|abbrev|unfoldable)\s+)?(?:pub\s+)?(" + WORD + r")")


def blocks_of_antt(text):
    """name -> (lines, text) of each definition of an .antt file."""
    found, comment, name, body = {}, [], None, []

    def close():
        if name is not None:
            kept = [x for x in body if x.strip()]
            if name in found:
                lines, before = found[name]
                found[name] = (lines + len(kept), before + "\n" + "\n".join(kept))
            else:
                found[name] = (len(kept), "\n".join(kept))

    for line in text.split("\n"):
        if line.startswith("use ") or line.startswith("pub mod") or line.startswith("mod "):
            close()
            name, body, comment = None, [], []
        elif line.startswith("-- ----"):
            close()
            name, body, comment = None, [], []
        elif line.startswith("--"):
            comment.append(line)
        elif not line.strip():
            if comment and not body:
                comment = []
            comment = []
        elif line[0] in " \t})":
            if name is not None:
                body += comment + [line]
            comment = []
        else:
            head = HEAD.match(line)
            word = head.group(1) if head else None
            first = line.split()[0]
            is_head = first in ("abbrev", "unfoldable", "pub", "record", "data", "recursive", "syntax")
            if is_head:
                close()
                name, body, comment = word, comment + [line], []
            else:
                if name is not None:
                    body += comment + [line]
                comment = []
    close()
    return found


def blocks_of_rt(text):
    """name -> (lines, text) of each public struct and enum of a .rt file."""
    found, comment, name, body = {}, [], None, []
    for line in text.split("\n"):
        head = re.match(r"^pub(?:\(crate\))? (?:struct|enum) (\w+)", line)
        if name is not None:
            if line.strip():
                body.append(line)
            if line.startswith("}") or line.startswith(");"):
                found[name] = (len(body), "\n".join(body))
                name = None
        elif head:
            name, body, comment = head.group(1), comment + [line], []
            if line.rstrip().endswith(";") or line.rstrip().endswith("}"):
                found[name] = (len(body), "\n".join(body))
                name = None
        elif line.startswith("///") or line.startswith("#["):
            comment.append(line)
        else:
            comment = []
    return found


def imports_of(text):
    """name -> (crate, file, name there), of the use lines of a file that name this repository's own."""
    found = {}
    for path, group, alias in re.findall(r"use Rattle\.([\w.\-]+?)(?:\.\{([^}]*)\})?(?: as ([\w\-]+))?;?\s*$", text, re.M):
        parts = path.split(".")
        if not parts[0].startswith("gv"):
            continue
        if len(parts) < 3 or parts[1] != "specs":
            continue
        crate = parts[0]
        if parts[2] == "declared":
            file = "src/" + parts[3] + ".rt"
            of = parts[4] if len(parts) > 4 else None
        else:
            file, of = parts[2], None
        if alias:
            found[alias] = (crate, file, of)
        for name in [x.strip() for x in group.split(",")] if group else []:
            if not name:
                continue
            shown = name.split(" as ")
            there, here = shown[0], shown[-1]
            if here.startswith("TheVariants"):
                continue
            found[here] = (crate, file, of if of else there)
    return found


def load():
    """(crate, file) -> (blocks, imports)."""
    files = {}
    for crate in sorted(os.listdir(CRATES)):
        for folder, ending in (("specs", ".antt"), ("src", ".rt")):
            top = os.path.join(CRATES, crate, folder)
            for place, _, names in os.walk(top) if os.path.isdir(top) else []:
                for name in names:
                    if not name.endswith(ending):
                        continue
                    with open(os.path.join(place, name), encoding="utf-8") as f:
                        text = f.read()
                    if ending == ".antt":
                        files[crate, name[:-5]] = (blocks_of_antt(text), imports_of(text))
                    else:
                        files[crate, "src/" + name] = (blocks_of_rt(text), {})
    return files


def declared_in(files, crate):
    """struct or enum -> file, of one crate."""
    return {name: file for (c, file), (blocks, _) in files.items() if c == crate and file.startswith("src/") for name in blocks}


def words(text):
    """The words that a definition refers to: neither its fields' names nor those that its own equations bind."""
    text = re.sub(r"--.*", "", text)
    text = re.sub(r"(?m)([{;]|^)(\s*)[\w\-]+ = ", r"\1\2", re.sub(r"(?m)^(  pub [\w\-]+) :", "  :", text))
    parts = re.split(r"(?m)^(?=\S)", text)
    return set().union(*(words_of_equation(x) for x in parts)) if parts else set()


def words_of_equation(text):
    bound = set()
    left = re.match(r"^[\w\-◌]+((?: [^\n=]*)?) =\s", text)
    if left:
        bound = {x for x in re.findall(r"[\w\-]+", left.group(1)) if x[0].islower()}
    return {x for x in words_in(text) if x not in bound}


def words_in(text):
    return set(re.findall(r"[^\s(){}\[\],;`λ→×≡]+", text)) | set(re.findall(r"◌[^\s{(]*◌", text))


def closure(files, roots):
    """All (crate, file, name) that these stand on."""
    seen, todo = set(), list(roots)
    while todo:
        key = todo.pop()
        if key in seen:
            continue
        crate, file, name = key
        entry = files.get((crate, file))
        if entry is None or name not in entry[0]:
            moved = declared_in(files, crate).get(name)
            if file.startswith("src/") and moved and moved != file:
                todo.append((crate, moved, name))
            continue
        seen.add(key)
        blocks, imports = entry
        text = blocks[name][1]
        if file.startswith("src/"):
            by_name = declared_in(files, crate)
            for word in set(re.findall(r"\w+", re.sub(r"//.*", "", text))):
                if word in by_name and word != name:
                    todo.append((crate, by_name[word], word))
                else:
                    for (c, f), (b, _) in files.items():
                        if c != crate and f.startswith("src/") and word in b and f"{c}::" in text:
                            todo.append((c, f, word))
            continue
        for word in words(text):
            first = word.split(".")[0]
            for use in (word, first):
                if use in blocks and use != name:
                    todo.append((crate, file, use))
                elif use in imports:
                    c, f, n = imports[use]
                    if n:
                        todo.append((c, f, n))
            for part in word.split("."):
                operator = "◌" + part + "◌"
                if operator in imports:
                    todo.append(imports[operator])
                elif operator in blocks and operator != name:
                    todo.append((crate, file, operator))
    return seen


def roots_of(files):
    """The words of the clauses of `mediate`."""
    with open(os.path.join(CRATES, "gv_run", "src", "call.rt"), encoding="utf-8") as f:
        text = f.read()
    clauses = text[text.index("pub fn mediate"):]
    clauses = re.sub(r"//.*", "", clauses[:clauses.index("\n{\n")])
    imports = imports_of(re.sub(r"ghost use", "use", text))
    own = {n: k for k, (blocks, _) in files.items() if k[0] == "gv_run" for n in blocks}
    roots = set()
    for word in words(clauses):
        for use in (word, word.split(".")[0]):
            if use in imports and imports[use][2]:
                roots.add(imports[use])
            elif use in own and use in ("Status",):
                roots.add((*own[use], use))
    return roots


def rows_of(text):
    """(section, crates' line, plain words, [(crate, file, name)], lines) of each row of a table of definitions."""
    rows, section, crate = [], None, None
    for line in text.split("\n"):
        if line.startswith("## "):
            section = line[3:]
        cells = [x.strip() for x in line.strip().strip("|").split("|")] if line.startswith("|") else []
        if len(cells) < 2 or cells[0].startswith("---") or cells[1].startswith("Definitions"):
            continue
        names, crate, file = [], None, None
        for piece in re.split(r"[;,] ", cells[1]):
            place = re.match(r"^(gv\w+), ?(.*)$", piece)
            # 'gv_types, src/ids.rt: `A`' was split at its comma
            if re.match(r"^gv\w+$", piece):
                crate = piece
                continue
            if place:
                crate, piece = place.group(1), place.group(2)
            where = re.match(r"^([\w/.]+): (.*)$", piece)
            if where:
                file, piece = where.group(1), where.group(2)
            for name in re.findall(r"`([^`]+)`", piece):
                names.append((crate, file, name))
        rows.append((section, cells[0], names, int(cells[2]) if len(cells) > 2 and cells[2].isdigit() else None))
    return rows


def check_rows(files, rows, told):
    for section, plain, names, lines in rows:
        total = 0
        for crate, file, name in names:
            entry = files.get((crate, file))
            if entry is None or name not in entry[0]:
                told(f"{section}: {crate}, {file} has no {name}")
            else:
                total += entry[0][name][0]
        if lines is not None and names and total != lines:
            told(f"{section}: '{plain[:60]}' has {total} lines, not {lines}")


def check_sums(text, rows, told):
    """The counts of the sections, in the table at the head."""
    by_section = {}
    for section, _, names, lines in rows:
        if names:
            n, k = by_section.get(section, (0, 0))
            by_section[section] = (n + len(names), k + (lines or 0))
    whole = [0, 0]
    for name, n, k in re.findall(r"^\| (\d+\. [^|]*?) \| ([\d,]+) \| ([\d,]+) \|$", text, re.M):
        got = by_section.get(name, (0, 0))
        whole = [whole[0] + got[0], whole[1] + got[1]]
        if got != (int(n.replace(",", "")), int(k.replace(",", ""))):
            told(f"section '{name}' has {got[0]} definitions in {got[1]} lines, not {n} in {k}")
    for n, k in re.findall(r"^\| All \| ([\d,]+) \| ([\d,]+) \|$", text, re.M):
        if whole != [int(n.replace(",", "")), int(k.replace(",", ""))]:
            told(f"all are {whole[0]:,} definitions in {whole[1]:,} lines, not {n} in {k}")


def main():
    files = load()
    reached = closure(files, roots_of(files))
    if "--closure" in sys.argv:
        for key in sorted(reached):
            print(*key, files[key[0], key[1]][0][key[2]][0])
        return 0
    wrong = []
    with open(os.path.join(ROOT, "docs", "HEADLINE.md"), encoding="utf-8") as f:
        text = f.read()
    rows = rows_of(text)
    check_rows(files, rows, lambda x: wrong.append("HEADLINE: " + x))
    check_sums(text, rows, lambda x: wrong.append("HEADLINE: " + x))
    named = [key for section, _, names, _ in rows if section and section[0].isdigit() for key in names]
    for key in sorted(set(named)):
        if named.count(key) > 1:
            wrong.append("HEADLINE: twice: " + ", ".join(key))
    for key in sorted(reached - set(named)):
        wrong.append(f"HEADLINE: missing: {key[0]}, {key[1]}: {key[2]} ({files[key[0], key[1]][0][key[2]][0]} lines)")
    for key in sorted(set(named) - reached):
        wrong.append("HEADLINE: not reached: " + ", ".join(str(x) for x in key))
    with open(os.path.join(ROOT, "docs", "DEFINITIONS.md"), encoding="utf-8") as f:
        check_rows(files, rows_of(f.read()), lambda x: wrong.append("DEFINITIONS: " + x))
    print("\n".join(wrong) if wrong else f"{len(named)} definitions, as the documents say")
    return 1 if wrong else 0


sys.exit(main())
