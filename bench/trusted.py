#!/usr/bin/env python3
"""Lists the definitions that the contracts of public functions cite, which a reader has to trust: bench/trusted.py [--cited | --run | --table]

Each file of a crate's specs/ begins with `-- Trusted: ` if a contract of a public function cites some of its definitions, directly or
through other definitions, and with `-- For proofs: ` if none does. Without an argument this lists the trusted files with their lines. A
file without such a first line ends it with status 1.

--cited  Follows the definitions from the contracts, by name. Prints each file whose first line says something else than was found, with
         the names that are cited in it. If there is one, the status is 1.
--run    Lists only the files that the program rests on: those that the contracts of `run`, of the laws over runs and deliveries, of the
         program and of the traits of its devices cite. You have to trust these if you use kconf and call none of its crates. The other
         trusted files say what the crates promise each other. Then it prints the lines of these files by part: the language, and the I/O
         layer with the command line. After them come the lines of these contracts, of the views of the types that they cite, and of the
         enums and structs that the definitions name, which all stand in the code (src/). It ends with three sums over the cited
         definitions alone, without comments: the same two parts, and all.
--table  Prints the table of docs/architecture.md, and the lines and files that serve proofs.
"""
import os
import re
import sys

TOP = os.path.dirname(os.path.dirname(os.path.abspath(__file__)))
# The calls that a user of the program rests on: the run, the laws over runs and deliveries, the program; and what the traits of the devices
# ask of these. None stands for all calls of the module.
RUN = {
    ("kc_conf", "runs"): {"run"},
    ("kc_conf", "many"): None,
    ("kc_conf", "folder_run"): {"run_in_folder"},
    ("kc_conf", "laws"): None,
    ("kc_io", "laws"): None,
    ("kc_io", "device"): None,
    ("kc_load", "folder"): None,
    ("kc_disk", "arguments"): None,
    ("kc_disk", "ended"): None,
    ("kc_disk", "laws"): None,
    ("kc_disk", "program"): {"kconf", "exit_status"},
}
# The crates of the sums at the end of --run, each with its name.
PARTS = (
    ("the language", ("kc_language", "kc_options", "kc_conf")),
    ("the I/O layer and the command line", ("kc_io", "kc_include", "kc_load", "kc_words", "kc_disk")),
)
HEADS = {"-- Trusted: ": True, "-- For proofs: ": False}
WORD = re.compile(r"[A-Za-z_][\w'«»-]*(?:\.[A-Za-z_0-9][\w'-]*)*")


def read(path):
    with open(path, encoding="utf-8") as file:
        return file.read()


def crates():
    folder = os.path.join(TOP, "crates")
    return sorted(name for name in os.listdir(folder) if os.path.isdir(os.path.join(folder, name, "src")))


def spec_files(crate):
    folder = os.path.join(TOP, "crates", crate, "specs")
    if not os.path.isdir(folder):
        return []
    return sorted(name for name in os.listdir(folder) if name.endswith(".antt") and name != "Lib.antt")


def items_of(group):
    """The items of the braces of a `use` line, with those of nested braces behind their path."""
    depth, start = 0, 0
    for at, letter in enumerate(group + ","):
        depth += {"{": 1, "}": -1}.get(letter, 0)
        if letter == "," and depth == 0:
            item, start = group[start:at].strip(), at + 1
            if item.endswith("}"):
                path, _, inner = item[:-1].partition(".{")
                yield from (f"{path}.{it}" for it in items_of(inner))
            elif item:
                yield item


def used(text):
    """What `use` lines bring: each path, and the name that it has here."""
    for path, group, name in re.findall(r"use (Rattle\.[\w.«»+-]+?)(?:\.\{(.*)\}| as (\w+))?;?$", text, re.M):
        if not group:
            yield path, name or path.split(".")[-1]
        for item in items_of(group):
            to, _, alias = item.partition(" as ")
            yield f"{path}.{to}", alias or to.split(".")[-1]


def imports(text):
    """What `use` lines bring: the names, and the names of whole modules, each with where it comes from."""
    names, modules = {}, {}
    for path, name in used(text):
        parts = path.split(".")
        if len(parts) == 4 and parts[2] == "specs":
            modules[name] = (parts[1], parts[3])
        elif len(parts) == 5 and parts[2] == "specs" and parts[3] != "declared":
            names[name] = (parts[1], parts[3], parts[4])
    return names, modules


def types(text):
    """The types that `use` lines bring, each with the crate and the module of the code that it stands in."""
    paths = (path.split(".") for path, _ in used(text))
    return {parts[5]: (parts[1], parts[4], parts[5]) for parts in paths if len(parts) > 5 and parts[2:4] == ["specs", "declared"]}


def declared(text):
    """The names that `use` lines bring of enums and structs, of their variants and constructors, each with the type that it is of."""
    paths = ((path.split("."), name) for path, name in used(text))
    return {name: (parts[1], parts[4], parts[5]) for parts, name in paths if len(parts) > 5 and parts[2:4] == ["specs", "declared"]}


def enums_and_structs(named):
    """The declarations of these enums and structs, and of those of the same crate that they hold, without comments and attributes."""
    found, waiting = {}, sorted(named)
    while waiting:
        crate, module, kind = waiting.pop()
        folder = os.path.join(TOP, "crates", crate, "src")
        if (crate, module, kind) in found or not os.path.exists(os.path.join(folder, f"{module}.rt")):
            continue
        code = read(os.path.join(folder, f"{module}.rt"))
        block = re.search(rf"^(?:pub(?:\(\w+\))? )?(?:enum|struct) {kind}\b(?:[^{{;]*;|.*?^\}})", code, re.M | re.S)
        if block is not None:
            lines = [line for line in block.group().split("\n") if line.strip() and not line.lstrip().startswith(("//", "#["))]
            found[crate, module, kind] = "\n".join(lines)
            words = set(re.findall(r"\w+", found[crate, module, kind]))
            waiting += [(crate, name[:-3], word) for name in os.listdir(folder) for word in words]
    return found


def views():
    """How contracts see the types that have a view: the ghost lines of each `impl Model`, with what they import, by crate, module and type."""
    found = {}
    for crate in crates():
        folder = os.path.join(TOP, "crates", crate, "src")
        for name in sorted(os.listdir(folder)):
            text = read(os.path.join(folder, name))
            for kind, body in re.findall(r"^impl(?:<[^>]*>)? Model for (\w+)(?:<[^>]*>)? \{\n(.*?)^\}", text, re.M | re.S):
                lines = [line for line in body.split("\n") if re.match(r" +ghost (?!use|coded)", line)]
                found[crate, name[:-3], kind] = ("\n".join(lines), text)
    return found


TYPE = re.compile(r" *(?:pub )?(?:data|record) ([A-Za-z_][\w'-]*)")
MARKS = r"(?:(?:pattern|unfoldable|abbrev|mutual|pub|data|record) +)*"
DECLARES = re.compile(rf"( *){MARKS}((?:[A-Za-z_«][\w'«»-]* )+)(?:[({{][^:]*:[^:]*[)}}] )*: ")


def definitions(text):
    """The definitions of a file: each name with its text. A record is one definition with its fields, and a type one with its
    constructors. What a `module` line says goes with each definition below it."""
    found, module, block, inside = {}, "", None, None
    for line in text.split("\n"):
        indent = len(line) - len(line.lstrip())
        if not line.strip() or line.lstrip().startswith("--") or re.match(r"(pub )?use ", line):
            continue
        if re.match(r"module _ ", line):
            module, block, inside = line, None, None
            continue
        if inside is not None and indent > inside:
            block.append(line)
            continue
        inside, module = None, module if indent else ""
        kind, declares = TYPE.match(line), DECLARES.match(line)
        if kind or declares:
            block, names = [module] if module else [], declares.group(2).split() if not kind else [kind.group(1)]
            inside = indent if kind else None
            for name in names:
                found.setdefault(name, []).append(block)
        if block is not None:
            block.append(line)
    return {name: ["\n".join(block) for block in blocks] for name, blocks in found.items()}


def public_items(crate):
    """The modules of the crate that others see, and the items of private ones that they see."""
    for root in ("lib.rt", "main.rt"):
        path = os.path.join(TOP, "crates", crate, "src", root)
        if os.path.exists(path):
            break
    text = read(path)
    modules = set(re.findall(r"^pub mod (\w+);", text, re.M))
    items = {}
    for module, many, one in re.findall(r"^pub use (?:crate::)?(\w+)::(?:\{([^}]*)\}|(\w+));", text, re.M):
        items.setdefault(module, set()).update(item.strip() for item in (many or one).split(",") if item.strip())
    return modules, items


def contracts(crate, calls=None):
    """The clauses of public functions, and what public types and traits tell of themselves (views, invariants, ghost fields and
    members), by file; of these calls alone, if some are named. How the logic stores a value (`coded`) says nothing of it, nor do
    the proofs that an implementation of a trait brings (`stays`, `goes_on`) and those beside ghost fields (`by`)."""
    modules, items = public_items(crate)
    folder = os.path.join(TOP, "crates", crate, "src")
    for name in sorted(os.listdir(folder)):
        module = name[:-3]
        if not name.endswith(".rt") or (module not in modules and module not in items):
            continue
        if calls is not None and (crate, module) not in calls:
            continue
        names = None if calls is None else calls[crate, module]
        text = read(os.path.join(folder, name))
        private = set(re.findall(r"^(?:pub\(\w+\) )?(?:struct|enum|trait) (\w+)", text, re.M))
        clauses, holder, fulfils, shown, public, part = [], None, False, True, False, None
        for line in text.split("\n"):
            opens = re.match(r"(?:pub(?:\(\w+\))? )?(?:impl|trait|struct|enum)\b(?:<[^{]*?>)? ?(?:[\w<>', ]+ for )?&?(?:'\w+ )?(\w+)", line)
            if opens and not line.endswith(("}", ";")):
                holder, fulfils = opens.group(1), " for " in line
                shown = holder not in private and (module in modules or holder in items[module] or fulfils)
            if line == "}":
                holder, fulfils, shown = None, False, True
            starts = re.match(r" *(pub(?:\(\w+\))? )?(?:const )?fn (\w+)", line)
            if starts:
                trait = holder is not None and re.search(rf"trait {holder}\b", text) is not None
                public = starts.group(1) == "pub " or trait or fulfils
                if holder is None:
                    public = public and (module in modules or starts.group(2) in items[module])
                else:
                    public = public and shown
                public = public and (names is None or starts.group(2) in names)
            # A clause goes on up to the next one or the body, a ghost item or field up to its `;` or `,`.
            told = re.match(r" +ghost (\w+)( = |: )", line)
            if told:
                silent = ("coded", "stays", "goes_on") if told.group(2) == " = " else ("coded",)
                part = "item" if told.group(1) not in silent and shown else None
            elif re.match(r" +(ensures|requires)\b", line):
                part = "clause" if public else None
            elif part == "clause" and line.strip() in ("{", "{}", ""):
                part = None
            if part is not None and not line.lstrip().startswith("//"):
                clauses.append(re.sub(r"(?<=\}) by \{.*\},$", ",", line) if part == "item" else line)
            if part == "item" and line.endswith(("};", "},")) or part == "clause" and line.endswith(";"):
                part = None
        if clauses:
            yield "\n".join(clauses), imports(text), types(text), declared(text)


def cited(calls=None):
    """What public contracts cite, or those of these calls, as (crate, module, name); the definitions among that, which constructors
    and fields are none of, as (crate, module, name, block of text); the contracts; the views; and the enums and structs."""
    texts = {}
    for crate in crates():
        for name in spec_files(crate):
            text = read(os.path.join(TOP, "crates", crate, "specs", name))
            texts[crate, name[:-5]] = (definitions(text), imports(text), types(text), declared(text))
    found, defined, waiting, seen = set(), set(), [], views()
    shown, clauses, named = {}, [], set()

    def follow(text, uses, here, kinds, declares):
        names, modules = uses
        named.update(declares[word.split(".")[0]] for word in set(WORD.findall(text)) if word.split(".")[0] in declares)
        for word in set(WORD.findall(text)):
            view = kinds.get(word.split(".")[0])
            if view in seen and view not in shown:
                shown[view] = seen[view][0]
                follow(seen[view][0], imports(seen[view][1]), None, types(seen[view][1]), declared(seen[view][1]))
        for word in set(WORD.findall(text)):
            parts = word.split(".")
            if parts[0] in modules and len(parts) > 1:
                goal = modules[parts[0]] + (parts[1],)
            elif parts[0] in names:
                goal = names[parts[0]]
            elif here is not None and parts[0] in texts[here][0]:
                goal = here + (parts[0],)
            else:
                continue
            if goal[:2] in texts and goal not in found:
                found.add(goal)
                waiting.append(goal)

    for crate in crates():
        for text, uses, kinds, declares in contracts(crate, calls):
            clauses.append(text)
            follow(text, uses, None, kinds, declares)
    while waiting:
        crate, module, name = waiting.pop()
        known, uses, kinds, declares = texts[crate, module]
        defined.update((crate, module, name, block) for block in known.get(name, []))
        # Another name is a constructor or a field: it stands in the block of its type.
        for block in known.get(name) or [block for blocks in known.values() for block in blocks]:
            if name in known or re.search(rf"(?<![\w.]){re.escape(name)}(?![\w'])", block):
                follow(block, uses, (crate, module), kinds, declares)
    return found, defined, clauses, shown, enums_and_structs(named)


def missing_calls():
    """The calls of RUN that their module does not have."""
    for (crate, module), names in RUN.items():
        text = read(os.path.join(TOP, "crates", crate, "src", f"{module}.rt"))
        yield from (f"{crate} {module} has no {name}" for name in sorted(names or ()) if not re.search(rf"^pub fn {name}\b", text, re.M))


def table():
    """The trusted files of each crate, with their lines, and how much serves proofs."""
    print("| Crate | Trusted files, with their lines | Lines | Lines for proofs |\n|---|---|---|---|")
    serving = []
    for crate in (line.split(":")[0].split()[0] for line in read(os.path.join(TOP, "crates.txt")).split("\n") if re.match(r"\w", line)):
        texts = [(name[:-5], read(os.path.join(TOP, "crates", crate, "specs", name))) for name in spec_files(crate)]
        trusted = [(name, text.count("\n")) for name, text in texts if text.startswith("-- Trusted: ")]
        proofs = [text.count("\n") for _, text in texts if not text.startswith("-- Trusted: ")]
        serving += proofs
        if texts:
            names = ", ".join(f"`{name}` {count}" for name, count in trusted) or "none"
            print(f"| `{crate}` | {names} | {sum(count for _, count in trusted):,} | {f'{sum(proofs):,} in {len(proofs)}' if proofs else 'none'} |")
    print(f"{sum(serving):,} lines in {len(serving)} files serve proofs")


def size(texts):
    return sum(text.count("\n") + 1 for text in texts)


def part_of(crate):
    """The title of the part of PARTS that a crate belongs to."""
    return next((title for title, group in PARTS if crate in group), "other crates")


def whole_files(files):
    """The sums over the files, with all their lines. Each file is its crate with its number of lines."""
    print("Whole files, with imports, comments and blank lines:")
    for title in dict.fromkeys(part_of(crate) for crate, _ in files):
        counts = [count for crate, count in files if part_of(crate) == title]
        print(f"{sum(counts):5} lines in {len(counts):3} files: {title}")


def summary(defined, clauses, shown, named):
    """What stands in the code, and the sums over the cited definitions alone."""
    code = [f"{size(clauses)} lines of contracts"]
    code += [f"{size(shown.values())} of views of {len(shown)} types"] if shown else []
    print(f"In the code: {', '.join(code)}, {size(named.values())} of {len(named)} enums and structs that the definitions name")
    print("The cited definitions alone, without comments:")
    groups = list(PARTS)
    rest = tuple(sorted({crate for crate, *_ in defined} - {crate for _, group in PARTS for crate in group}))
    groups += [("other crates", rest)] if rest else []
    for title, group in groups + [("all", None)]:
        inside = [it for it in defined if group is None or it[0] in group]
        blocks = {(crate, module, block) for crate, module, _, block in inside}
        lines = sum(not line.lstrip().startswith("--") for _, _, text in blocks for line in text.split("\n"))
        names = len({(crate, module, name) for crate, module, name, _ in inside})
        print(f"{lines:5} lines in {names:3} definitions: {title}" + (f" ({', '.join(group)})" if group else ""))


def main():
    if "--table" in sys.argv[1:]:
        return table()
    missing = list(missing_calls())
    if missing:
        sys.exit("\n".join(missing))
    compare, of_run = "--cited" in sys.argv[1:], "--run" in sys.argv[1:]
    found, defined, clauses, shown, named = cited(RUN if of_run else None) if compare or of_run else (set(), set(), [], {}, {})
    wrong, files = 0, []
    for crate in crates():
        for name in spec_files(crate):
            path = os.path.join("crates", crate, "specs", name)
            text = read(os.path.join(TOP, path))
            trusted = next((is_trusted for head, is_trusted in HEADS.items() if text.startswith(head)), None)
            count = text.count("\n")
            if trusted is None:
                print(f"{path}: no head line")
                wrong += 1
            elif trusted and (not of_run or any(item[:2] == (crate, name[:-5]) for item in found)):
                files.append((crate, count))
                if not compare:
                    print(f"{count:5} {path}")
            if compare:
                names = sorted(item[2] for item in found if item[:2] == (crate, name[:-5]))
                if bool(names) != trusted:
                    print(f"{path}: {'cited' if names else 'not cited'} {' '.join(names)}")
                    wrong += trusted is not None
    if not compare:
        print(f"{sum(count for _, count in files):5} lines in {len(files)} trusted files")
    if of_run:
        whole_files(files)
        summary(defined, clauses, shown, named)
    sys.exit(1 if wrong else 0)


main()
