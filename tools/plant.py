#!/usr/bin/env python3
"""Plants small bugs, one at a time, and tells which of them the proof still accepts.

    tools/plant.py CRATE [--specs] [--most N] [--seed N] [--jobs N] [--only TEXT] [--list]

A bug changes one line of the crate's code (with --specs of its definitions, in specs/): an operator, a number, a bound, a
case, the order of arguments, a statement left out. Clauses, ghost members, comments and `use` lines are left alone. Each bug
is put into a copy of the repository and judged there by `rt check`:

    refused      the crate compiles, and the prover does not accept it
    no program   the crate does not compile: its types or its syntax refuse the bug, and nothing is said of any contract
    SURVIVES     the crate is proved with the bug in it: a contract says too little, or the bug changes nothing

The crate itself has to be proved first, without which no verdict counts. The last line is
'CRATE: planted N refused M survived K, and L that do not compile'.
"""
import argparse
import glob
import os
import random
import re
import shutil
import subprocess
import sys
import tempfile
from concurrent.futures import ThreadPoolExecutor
from queue import Queue

PAIRS = [  # each is turned into the other, as a whole word
    ("min", "max"), ("first", "last"), ("true", "false"), ("is_some", "is_none"), ("is_ok", "is_err"), ("any", "all"),
    ("checked_add", "checked_sub"), ("saturating_sub", "wrapping_sub"), ("saturating_add", "wrapping_add"),
    ("take", "skip"), ("from_le_bytes", "from_be_bytes"), ("Set", "Clear"), ("Ok", "Err"),
    ("before", "after"), ("u32_at", "u64_at"), ("starts_with", "ends_with"), ("take_while", "skip_while"),
]
SPEC_PAIRS = [("min", "max"), ("first", "last"), ("true", "false"), ("Set", "Clear")]
CODE = [  # a pattern, and what stands for it
    (r" <= ", " < "), (r" >= ", " > "), (r" < (?=[\w(*])", " <= "), (r" > (?=[\w(*])", " >= "),
    (r" == ", " != "), (r" != ", " == "), (r" && ", " || "), (r" \|\| ", " && "),
    (r" \+ ", " - "), (r" - (?!>)", " + "), (r" \* ", " + "), (r" / ", " * "), (r" % ", " / "),
    (r" << ", " >> "), (r" >> ", " << "), (r" & (?!mut)", " | "), (r" \| ", " & "), (r" \^ ", " | "),
    (r" \+= ", " -= "), (r" -= ", " += "), (r"\.\.=", ".."), (r"\[\.\.(\w+)\]", r"[\1..]"), (r"\[(\w+)\.\.\]", r"[..\1]"),
    (r"\bif (?!let\b)([^{]+) \{", r"if !(\1) {"), (r"\bSome\(\w+\)(?= *[,;}\n]|$)", "None"), (r"!(?=[a-z(])", ""),
    (r"\.rev\(\)", ""), (r"\.(iter|iter_mut|chars)\(\)", r".\1().rev()"),
    (r"\.(iter|iter_mut)\(\)", r".\1().skip(1)"), (r"\bif (?!let\b)([^{]+) \{", "if true {"), (r"\bif (?!let\b)([^{]+) \{", "if false {"),
    (r" as (u128|usize)\b", r" as u8 as \1"), (r"^(\s*)([^;{}]*(?: [=!<>]=? |&&|\|\||any\(|all\()[^;{}]*)$", r"\1!(\2)"), (r"\.position\(", ".rposition("),
    (r"\.(min|max|map_err|filter)\([^()]*(\([^()]*\))?[^()]*\)", ""), (r"\((\w[\w.]*)\)", r"(\1 + 1)"),
]
STATEMENT = re.compile(r"^\s*([\w.\[\]*]+ (=|\+=|-=|\|=|\^=) [^=].*|[\w.]+\([^;]*\)\??);$")
DEFINITIONS = [
    (r" ≤ ", " < "), (r" < ", " ≤ "), (r" \+ ", " - "), (r" - ", " + "), (r" \* ", " + "), (r" / ", " * "), (r" % ", " / "),
    (r"(\w+) \+\+ (\w+)$", r"\2 ++ \1"), (r" && ", " || "), (r" \|\| ", " && "), (r"\btake\b", "drop"), (r"\bdrop\b", "take"),
    (r"\bSome \w+$", "None"), (r"\bsuc (\w+)(?= *(\)|$))", r"\1"), (r"\bzero$", "1"), (r"\[\]$", "(0 ∷ [])"),
]
NUMBER = re.compile(r"(?<![\w.'\"])(0x[0-9a-fA-F_]+|\d[\d_]*)(?![\w'.\"])")
ENUM = re.compile(r"^pub enum (\w*(?:Refusal|Cause)) \{\n(.*?)^\}", re.M | re.S)
VARIANT = re.compile(r"^    ([A-Z]\w*)(\(.*\))?( = \w+)?,$", re.M)


def numbered_enums():
    """The enums of refusals and causes that have numbers, in all crates: of each its variants with the data of each."""
    texts = [open(path).read() for path in sorted(glob.glob("crates/*/src/**/*.rt", recursive=True))]
    numbered = {name for text in texts for name in re.findall(r"^impl Numbered for (\w+)", text, re.M)}
    enums = {}
    for name, body in (found for text in texts for found in ENUM.findall(text)):
        variants = VARIANT.findall(body)
        if name in numbered or any(number for _, _, number in variants):
            enums[name] = {variant: data for variant, data, _ in variants}
    return enums


def next_of(variants, one):
    """The variant behind this one that has the same data, or the first such; None where there is no other."""
    alike = [x for x in variants if variants[x] == variants[one]]
    other = alike[(alike.index(one) + 1) % len(alike)]
    return other if other != one else None


def other_variants(line, enums):
    for m in re.finditer(r"\b(\w+)::(\w+)\b", line):
        variants = enums.get(m.group(1), {})
        other = next_of(variants, m.group(2)) if m.group(2) in variants else None
        if other:
            yield line[: m.start(2)] + other + line[m.end(2):]


def imported_variants(lines, enums):
    """The variants that a file of definitions imports, by the enum of each, as they are written there."""
    text = "\n".join(lines)
    for m in re.finditer(r"^use \S+\.(\w+)\.TheVariants\.\{([^}]*)\}", text, re.M):
        variants = enums.get(m.group(1), {})
        yield {x: variants[x] for x in m.group(2).split(", ") if x in variants}
    for m in re.finditer(r"^use \S+\.(\w+)\.TheVariants as (\w+)", text, re.M):
        yield {f"{m.group(2)}.{x}": data for x, data in enums.get(m.group(1), {}).items()}


def other_constructors(line, imported):
    for variants in imported:
        for one in variants:
            other = next_of(variants, one)
            for m in re.finditer(rf"(?<![\w.]){re.escape(one)}\b", line) if other else []:
                yield line[: m.start()] + other + line[m.end():]


def numbers(line):
    for m in NUMBER.finditer(line):
        value = int(m.group(1).replace("_", ""), 0)
        for other in (value + 1, value - 1):
            if other >= 0:
                yield line[: m.start()] + str(other) + line[m.end():]


def patterns(line, table):
    for pattern, new in table:
        for m in re.finditer(pattern, line):
            yield line[: m.start()] + m.expand(new) + line[m.end():]


def words(line, pairs):
    for one, other in pairs:
        for old, new in ((one, other), (other, one)):
            for m in re.finditer(rf"\b{old}\b", line):
                yield line[: m.start()] + new + line[m.end():]


def swapped(line):
    """Neighbours in a list change places, but for the fields of a struct, whose order says nothing."""
    for m in re.finditer(r"\b(\w+), (\w+)\b", line):
        if line.count("{", 0, m.start()) == line.count("}", 0, m.start()):
            yield line[: m.start()] + m.expand(r"\2, \1") + line[m.end():]


def code_bugs(line, enums):
    yield from patterns(line, CODE)
    yield from swapped(line)
    yield from numbers(line)
    yield from words(line, PAIRS)
    for m in re.finditer(r"\bb'(\w|[+$#,:-])'", line):
        yield line[: m.start(1)] + chr(ord(m.group(1)) + 1) + line[m.end(1):]
    for m in re.finditer(r'"([\w.$#:]+)"', line):
        yield line[: m.start(1)] + m.group(1)[::-1] + line[m.end(1):]
    yield from other_variants(line, enums)
    if STATEMENT.match(line):
        yield re.match(r"^\s*", line).group(0) + "{}"
        if " = " not in line:
            yield line + line.strip()


def spec_bugs(line, imported):
    equals = line.find(" = ")
    if equals < 0:
        return
    head, body = line[: equals + 3], line[equals + 3:]
    for new in (*patterns(body, DEFINITIONS), *numbers(body), *words(body, SPEC_PAIRS), *other_constructors(body, imported)):
        yield head + new


def names_of(lines):
    """For each line the names that its function binds."""
    out, names = [], set()
    for line in lines:
        if re.search(r"\bfn \w+", line):
            names = set()
        for m in re.finditer(r"\blet (?:mut )?([a-z]\w*)|\bfor ([a-z]\w*) in|\|(\w+)\||\b(?:Some|Ok|Err)\((\w+)\)|\b([a-z]\w*): (?!:)", line):
            names.update(x for x in m.groups() if x and not x.isdigit())
        if "self" in line:
            names.add("self")
        out.append(names)
    return out


def other_names(line, names):
    for m in re.finditer(r"(?<![\w.:])([a-z_]\w*)\b(?!\w*[(!:{])", line):
        if m.group(1) in names:
            for other in sorted(names - {m.group(1)}):
                yield line[: m.start()] + other + line[m.end():]
    fields = sorted({m.group(1) for m in re.finditer(r"\.([a-z_]\w*)\b(?!\w*\()", line)} | {"count", "first", "place", "depth"})
    for m in re.finditer(r"\.([a-z_]\w*)\b(?!\w*[(.])", line):
        for other in fields:
            if other != m.group(1):
                yield line[: m.start(1)] + other + line[m.end(1):]


def code_lines(lines):
    """The numbers of the lines of code: no clause, ghost member, comment, attribute or `use` line."""
    left_out = False
    for n, line in enumerate(lines):
        s = line.strip()
        if left_out or re.match(r"(ghost|requires|ensures|use|pub use)\b", s):
            left_out = "}" not in s and not s.endswith(";")
        elif s and not re.match(r"(//|#|use |pub use |(pub(\(\w+\))? )?(mod|fn|struct|enum|trait|type)\b|impl\b|\w+: [\w<>&' ]+,$)", s):
            yield n


def spec_lines(lines):
    return [n for n, line in enumerate(lines) if line.strip() and not re.match(r"\s*(--|use )", line)]


def tests_of(crate):
    """The modules of a crate that are tests."""
    root = open(os.path.join("crates", crate, "src", "lib.rt")).read()
    return set(re.findall(r"#\[cfg\(test\)\]\nmod (\w+);", root))


def planted(crate, specs):
    folder, end = ("specs", ".antt") if specs else ("src", ".rt")
    tests = tests_of(crate)
    enums = numbered_enums()
    for at, _, names in sorted(os.walk(os.path.join("crates", crate, folder))):
        if f"{folder}/declared" in at:
            continue
        for name in sorted(names):
            if not name.endswith(end) or name == "Lib.antt" or name[: -len(end)] in tests:
                continue
            path = os.path.join(at, name)
            lines = open(path).read().split("\n")
            names = names_of(lines)
            imported = list(imported_variants(lines, enums)) if specs else []
            for n in (spec_lines if specs else code_lines)(lines):
                seen = {lines[n]}
                for new in spec_bugs(lines[n], imported) if specs else code_bugs(lines[n], enums):
                    if new not in seen:
                        seen.add(new)
                        yield 0, path, n, lines[n], new
                for new in [] if specs else other_names(lines[n], names[n]):
                    if new not in seen:
                        seen.add(new)
                        yield 1, path, n, lines[n], new


def check(repository, crate, *flags):
    r = subprocess.run(["rt", "check", "--jobs", "1", *flags], cwd=os.path.join(repository, "crates", crate), capture_output=True, text=True)
    return r.returncode, r.stdout + r.stderr


def function_at(crate, path, n, lines, known):
    """The name by which the prover knows the function of a line, if it is the only one of that name in its file."""
    for line in reversed(lines[: n + 1]):
        m = re.search(r"\bfn (\w+)", line)
        if m:
            module = path.split("/src/")[1][: -len(".rt")].replace("/", "::")
            fit = [x for x in known if x.startswith(f"{crate}::{module}::") and x.split("::")[-1] == m.group(1) and "::fn::" not in x]
            return fit[0] if len(fit) == 1 else None
    return None


def verdict(code, said, specs):
    if code == 0:
        return "SURVIVES"
    if not re.search(r"^(logic|only)=", said, re.M) or (specs and re.search(r"^specs/\S+: error", said, re.M)):
        return "no program"
    return "refused"


def first_error(said):
    lines = [x for x in said.split("\n") if "error" in x or "must prove" in x]
    return lines[0].strip()[:160] if lines else ""


def main():
    options = argparse.ArgumentParser(description=__doc__, formatter_class=argparse.RawDescriptionHelpFormatter)
    options.add_argument("crate")
    options.add_argument("--specs", action="store_true", help="plant in the definitions")
    options.add_argument("--most", type=int, default=60, help="so many that compile")
    options.add_argument("--seed", type=int, default=1)
    options.add_argument("--jobs", type=int, default=2)
    options.add_argument("--only", default="", help="only bugs in files whose path has this text")
    options.add_argument("--list", action="store_true", help="only list them")
    a = options.parse_args()
    os.chdir(os.path.join(os.path.dirname(os.path.abspath(__file__)), ".."))
    bugs = [b for b in planted(a.crate, a.specs) if a.only in b[1]]
    random.Random(a.seed).shuffle(bugs)
    # names that stand for others mostly do not compile: they come last, and not all of them
    bugs = [b[1:] for b in bugs if b[0] == 0] + [b[1:] for b in bugs if b[0] == 1][: a.most]
    if a.list:
        for path, n, old, new in bugs[: a.most]:
            print(f"{path}:{n + 1}: {old.strip()}  ->  {new.strip()}")
        return
    with tempfile.TemporaryDirectory() as scratch:
        free = Queue()
        for k in range(a.jobs):
            copy = os.path.join(scratch, str(k))
            shutil.copytree(".", copy, symlinks=True, ignore=shutil.ignore_patterns(".git"))
            free.put(copy)
        copy = free.get()
        code, said = check(copy, a.crate)
        free.put(copy)
        if verdict(code, said, a.specs) != "SURVIVES":
            sys.exit(f"{a.crate} is not proved without a bug: {first_error(said)}")
        known = re.findall(r"^fn (\S+): proved", said, re.M)

        judged = []

        def judge(bug):
            path, n, old, new = bug
            copy = free.get()
            if len(judged) >= a.most:
                free.put(copy)
                return None
            try:
                lines = open(path).read().split("\n")
                lines[n] = new
                with open(os.path.join(copy, path), "w") as f:
                    f.write("\n".join(lines))
                name = None if a.specs else function_at(a.crate, path, n, lines, known)
                code, said = check(copy, a.crate, *(["--only", name] if name else []))
                if name and code == 0:  # the function itself is proved: now all that stands on it
                    code, said = check(copy, a.crate)
                shutil.copyfile(path, os.path.join(copy, path))
                mark = verdict(code, said, a.specs)
                if mark != "no program":
                    judged.append(bug)
                why = first_error(said) if mark == "refused" else ""
                print(f"{mark}: {path}:{n + 1}: {old.strip()}  ->  {new.strip()}  {'| ' + why if why else ''}", flush=True)
                return mark
            finally:
                free.put(copy)

        with ThreadPoolExecutor(a.jobs) as pool:
            marks = list(pool.map(judge, bugs))
    refused, survived = marks.count("refused"), marks.count("SURVIVES")
    print(f"{a.crate}: planted {refused + survived} refused {refused} survived {survived},"
          f" and {marks.count('no program')} that do not compile")


main()
