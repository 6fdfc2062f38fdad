#!/usr/bin/env python3
"""Statements over library types alone that stand more than once in the repository.

Read are the files crates/*/specs/**/*.antt and crates/*/proofs/**/*.antt; of these every named item at the top of a file or of a
`module` in it, and each item under a `where` whose statement speaks of nothing outside it. An item counts where each name in its
statement is a variable, a builtin, or is imported from a library of the kit or from ae_base: a statement that cites anything else of
the repository is about its subject, and may only stand where that subject is.

Two statements are the same where they are the same after this: `X as Y` is read as X, a few library names with two spellings as one,
binders `(x y : A)` one by one, braces as parentheses, premises in their order with the variables numbered as they are first used, and
the variables' own types beside them in any order. An item that states no relation (a definition) is compared with its clauses too.
A short name of a type that is made of others (`Row = List A × B`) states nothing, and isn't counted.

    tools/duplicates.py             the groups of statements that stand twice or more; exit status 1 if there is one
    tools/duplicates.py --all       every statement over library types alone, by crate and file: what may go to ae_base
    tools/duplicates.py --library   also those that the kit's std proves already (KIT in the environment, or /opt/rattle), and statements
                                    that std or ae_base has, at types of a crate's own
ROOT in the environment is another copy of the repository to look at.
"""
import os
import re
import sys
from collections import defaultdict

ROOT = os.environ.get("ROOT") or os.path.dirname(os.path.dirname(os.path.abspath(__file__)))
KIT = os.environ.get("KIT", "/opt/rattle")
SHARED = "ae_base"
SPELLINGS = {
    "none": "None", "some": "Some", "eqb": "nat_eq", "ltb": "nat_lt", "leb": "nat_le", "nil": "[]", "cons": "◌∷◌",
    "slice_index_or": "get_or", "ok": "Ok", "err": "Err", "Maybe": "Option",
}
LOOSE = {"→", "×", "⊎", "↔"}
TESTS = {"≡", "≢", "<", "≤", "<ℤ", "≤ℤ", "∣", "∈"}
PLAIN_TYPES = {"ℕ", "ℤ", "ℚ", "Bool", "List", "Option", "Result", "Type", "Unit", "Ordering", "Some", "None", "Ok", "Err", "Less", "Equal", "Greater"}
RELATIONS = {"≡", "≢", "<", "≤", "⊥", "¬", "↔", "∈", "Path", "IsTrue", "Decides", "IsPermutation", "AllByRecursion", "All", "⊎", "<ℤ", "≤ℤ", "Dec"}
BUILTINS = {"λ", "record", "true", "false", "tt", "refl", "inl", "inr", "cc", "let", "in", "match", "with", "absurd"}
TOKEN = re.compile(r"\|\||[()\[\]{}|,]|[^\s()\[\]{}|,]+")
SKIP = ("use ", "pub use ", "mod ", "pub mod ", "infix", "--", "data ", "pub data ", "record ", "pub record ", "syntax", "pub syntax",
        "unfolding", "tactic", "pub tactic", "ruleset", "pub ruleset", "rules", "pub rules")


def read_uses(text):
    """Local name -> (full path of the module, name there)."""
    names, modules = {}, {}
    for path, items, alias in re.findall(r"^(?:pub )?use +([^\s{;]+?)(?:\.\{([^}]*)\})?(?: +as +(\S+))?\s*$", text, re.M):
        if items:
            for item in items.split(","):
                words = item.split()
                if not words:
                    continue
                new = words[2] if len(words) == 3 and words[1] == "as" else words[0]
                names[new] = (path, words[0])
        else:
            modules[alias or path.split(".")[-1]] = path
    return names, modules


def operator_parts(name):
    return [part for part in name.split("◌") if part]


def read_renames():
    table = {}
    path = os.path.join(os.path.dirname(os.path.abspath(__file__)), "renames.tsv")
    if os.path.exists(path):
        for line in open(path, encoding="utf-8"):
            if "\t" in line and not line.startswith("#"):
                old, new = line.rstrip("\n").split("\t")[:2]
                table[old] = new
    return table


RENAMES = read_renames()


def home(path, name):
    full = path + "." + name
    if full in RENAMES:
        return RENAMES[full].rpartition(".")[0]
    return RENAMES.get(path, path)


def is_library(path):
    parts = path.split(".")
    return parts[0] != "Rattle" or len(parts) < 2 or not parts[1].startswith(("ae_", "altac")) or parts[1] == SHARED


def items_of(text):
    """(line, module binders, name, binders, type, clauses) for each item at the top of the file or of a module in it."""
    lines = text.split("\n")
    modules = []  # (indent of its items, binders)
    i = 0
    while i < len(lines):
        line = lines[i]
        if not line.strip():
            i += 1
            continue
        indent = len(line) - len(line.lstrip(" "))
        while modules and indent < modules[-1][0]:
            modules.pop()
        body = line.strip()
        found = re.match(r"^(?:pub )?module +\S+(.*) where$", body)
        if found:
            modules.append((indent + 2, found.group(1)))
            i += 1
            continue
        level = modules[-1][0] if modules else 0
        if indent != level or body.startswith(SKIP):
            i += 1
            if body.startswith(("data ", "pub data ", "record ", "pub record ")):
                while i < len(lines) and (not lines[i].strip() or len(lines[i]) - len(lines[i].lstrip(" ")) > indent):
                    i += 1
            continue
        start = i
        whole = body
        i += 1
        while i < len(lines) and lines[i].strip() and len(lines[i]) - len(lines[i].lstrip(" ")) > indent:
            whole += " " + lines[i].strip()
            i += 1
        head = split_head(whole)
        if not head:
            continue
        name, binders, kind, marks = head
        clauses = []
        while i < len(lines):
            if not lines[i].strip():
                break
            clause = lines[i].strip()
            i += 1
            while i < len(lines) and lines[i].strip() and len(lines[i]) - len(lines[i].lstrip(" ")) > indent:
                clause += " " + lines[i].strip()
                i += 1
            clauses.append(clause)
        yield start + 1, " ".join(m[1] for m in modules), name, binders, kind, clauses, marks


def inner_items_of(text):
    """(line, name, binders, type, clauses, marks) for each item under a `where`."""
    lines = text.split("\n")
    for i, line in enumerate(lines):
        body = line.strip()
        indent = len(line) - len(line.lstrip(" "))
        if not indent or body.startswith(SKIP) or not re.match(r"^[^\s(){}:,λ|]+ (\(.*\) |\{.*\} )?: ", body):
            continue
        k = i
        while k and (not lines[k - 1].strip() or len(lines[k - 1]) - len(lines[k - 1].lstrip(" ")) >= indent):
            k -= 1
        if not k or not lines[k - 1].strip().endswith("where") or lines[k - 1].strip().startswith(("record ", "pub record ", "data ", "pub data ", "module ", "pub module ")):
            continue
        whole, clauses, i = body, [], i + 1
        while i < len(lines) and lines[i].strip() and len(lines[i]) - len(lines[i].lstrip(" ")) > indent:
            whole += " " + lines[i].strip()
            i += 1
        head = split_head(whole)
        if not head:
            continue
        name, binders, kind, marks = head
        while i < len(lines) and lines[i].startswith(" " * indent) and lines[i].strip().split(" ")[0] == name and not re.match(r"^\S+ : ", lines[i].strip()):
            clause = lines[i].strip()
            i += 1
            while i < len(lines) and lines[i].strip() and len(lines[i]) - len(lines[i].lstrip(" ")) > indent:
                clause += " " + lines[i].strip()
                i += 1
            clauses.append(clause)
        if clauses:
            yield i, name, binders, kind, clauses, marks


def split_head(text):
    """name, binders and type of `pub abbrev name {A} (x : A) : type`, where it is such."""
    marks = []
    words = text
    while True:
        found = re.match(r"^(pub|abbrev|unfoldable|opaque) +", words)
        if not found:
            break
        marks.append(found.group(1))
        words = words[found.end():]
    found = re.match(r"^([^\s(){}:]+)", words)
    if not found:
        return None
    name = found.group(1)
    depth = 0
    rest = words[found.end():]
    for k, c in enumerate(rest):
        if c in "([{":
            depth += 1
        elif c in ")]}":
            depth -= 1
        elif depth == 0 and rest.startswith(" : ", k):
            binders = rest[:k].strip()
            if binders and not binders[0] in "({":
                return None
            return name, binders, rest[k + 3:].strip(), marks
        elif depth == 0 and c == "=":
            return None
    return None


def tokens_of(text):
    out = []
    for token in TOKEN.findall(text):
        out.append(token)
    return out


def groups(tokens):
    """Nests the tokens by their brackets."""
    stack = [[]]
    for token in tokens:
        if token in "([{":
            stack.append([token])
        elif token in ")]}" and len(stack) > 1:
            done = stack.pop()
            stack[-1].append(done)
        else:
            stack[-1].append(token)
    while len(stack) > 1:
        done = stack.pop()
        stack[-1].append(done)
    return stack[0]


def arrows(nest):
    """Splits a nested type into its premises and its result: ([(variable or None, type)], result)."""
    premises = []
    segment = []
    for k, part in enumerate(nest):
        if part == "→":
            premises += binders_of(segment)
            segment = []
        elif part == "λ":
            segment += nest[k:]
            break
        else:
            segment.append(part)
    return premises, segment


def binders_of(segment):
    if segment and all(isinstance(p, list) and ":" in p for p in segment):
        out = []
        for p in segment:
            at = p.index(":")
            for name in p[1:at]:
                out.append((name if isinstance(name, str) else None, p[at + 1:]))
        return out
    return [(None, segment)]


def names_in(nest, out):
    for part in nest:
        if isinstance(part, list):
            names_in(part, out)
        else:
            out.add(part.split(".")[0] if not part.startswith(".") else part)
            out.add(part)
    return out


def simplified(parts):
    """The parts without `{A = ..}`, with prefix operators written between, and without parentheses that change nothing."""
    if "record" not in parts:
        parts = [p for p in parts if not (isinstance(p, list) and p and p[0] == "{" and "=" in p)]
    if len(parts) >= 3 and isinstance(parts[0], str) and re.match(r"^◌[^◌]+◌$", parts[0]):
        parts = [parts[1], parts[0].strip("◌"), parts[2]] + parts[3:]
    out = []
    for k, part in enumerate(parts):
        if isinstance(part, list) and part and part[0] == "(" and ":" not in part and len(parts) > 1:
            inner = simplified(part[1:])
            before = parts[k - 1] if k else None
            after = parts[k + 1] if k + 1 < len(parts) else None
            beside = [n for n in (before, after) if n is not None]
            loose = any(n in LOOSE or n == "λ" or n == "," for n in inner if isinstance(n, str))
            tested = any(n in TESTS for n in inner if isinstance(n, str))
            if beside and not loose and not tested and all(isinstance(n, str) and (n in TESTS or n in LOOSE) for n in beside):
                out += inner
                continue
            out.append(["("] + inner)
            continue
        out.append(part)
    return out


class Canon:
    def __init__(self, uses, modules, local):
        self.uses, self.modules, self.local = uses, modules, local
        self.operators = {}
        for name, (path, old) in uses.items():
            for part, real in zip(operator_parts(name), operator_parts(old)):
                if "◌" in name:
                    self.operators[part] = (path, old)
        self.generic = True
        self.free = set()

    def word(self, token, bound, numbers):
        head, dot, tail = token.partition(".")
        if token in bound or (dot and head in bound):
            name = bound[token] if token in bound else bound[head]
            if name not in numbers:
                numbers[name] = "v%d" % len(numbers)
            return numbers[name] + (dot + tail if token not in bound else "")
        if token in self.uses:
            path, old = self.uses[token]
            if not is_library(home(path, old)):
                self.generic = False
            return SPELLINGS.get(old, old)
        if token in self.operators:
            path, old = self.operators[token]
            if not is_library(home(path, old)):
                self.generic = False
            return token
        if dot and head in self.modules:
            if not is_library(self.modules[head]):
                self.generic = False
            return tail
        if token in self.local or (dot and head in self.local) or any(token in operator_parts(name) for name in self.local if "◌" in name):
            self.generic = False
            return token
        if re.match(r"^[^\W\d]\w*'?$", head) and head not in PLAIN_TYPES and head not in BUILTINS:
            self.free.add(head)
        return SPELLINGS.get(token, token)

    def flat(self, nest, bound, numbers):
        if isinstance(nest, str):
            return self.word(nest, bound, numbers)
        opening = nest[0] if nest and nest[0] in ("(", "[", "{") else ""
        parts = nest[1:] if opening else nest
        if opening in ("(", "{") and ":" in parts and "→" not in parts:
            bound = dict(bound)
            at = parts.index(":")
            inner = self.flat(parts[at + 1:], bound, numbers)
            return "(" + inner + ")"
        text = []
        bound = dict(bound)
        parts = simplified(parts)
        k = 0
        while k < len(parts):
            part = parts[k]
            if isinstance(part, list) and part and part[0] in ("(", "{") and ":" in part and k + 1 < len(parts) and self.leads(parts, k):
                at = part.index(":")
                kind = self.flat(part[at + 1:], bound, numbers)
                for name in part[1:at]:
                    if isinstance(name, str):
                        bound[name] = (name, id(part))
                        numbers[bound[name]] = "v%d" % len(numbers)
                        text.append("(" + numbers[bound[name]] + ":" + kind + ")")
                k += 1
                continue
            if part == "λ":
                k += 1
                while k < len(parts):
                    name = parts[k]
                    k += 1
                    if isinstance(name, str):
                        plain = name.rstrip(".")
                        bound[plain] = (plain, k, id(parts))
                        numbers[bound[plain]] = "v%d" % len(numbers)
                        text.append("λ" + numbers[bound[plain]])
                        if name.endswith("."):
                            break
                continue
            text.append(self.flat(part, bound, numbers))
            k += 1
        close = {"(": ")", "[": "]", "{": "}"}.get(opening, "")
        inside = " ".join(t for t in text if t)
        if opening in ("(", "{") and len(text) == 1:
            return text[0]
        return ("(" if opening == "{" else opening) + inside + (")" if opening == "{" else close)

    def leads(self, parts, k):
        for part in parts[k + 1:]:
            if part in ("→", "×"):
                return True
            if not (isinstance(part, list) and ":" in part):
                return False
        return False

    def statement(self, outer, binders, kind, clauses, marks, name):
        outside = binders_of(groups(tokens_of(outer))) if outer.strip() else []
        premises, result = arrows(groups(tokens_of(kind)))
        outside = [p for p in outside if p[0] != "_" or p[1]]
        own = binders_of(groups(tokens_of(binders))) if binders else []
        every = own + premises
        used = names_in([p[1] for p in every], names_in(result, set()))
        keep = []
        # of the module's binders those that the statement uses, and what these use
        for variable, kind_of in reversed(outside):
            if variable in used:
                keep.insert(0, (variable, kind_of))
                names_in(kind_of, used)
        every = keep + every
        bound, numbers = {}, {}
        shown, kinds = [], []
        later = [names_in([p[1] for p in every[k + 1:]], names_in(result, set())) for k in range(len(every))]
        for k, (variable, kind_of) in enumerate(every):
            if variable and variable != "_":
                bound[variable] = (variable, k)
        for k, (variable, kind_of) in enumerate(every):
            if variable and variable in later[k]:
                continue
            shown.append(self.flat(kind_of, bound, numbers))
        shown.append(self.flat(result, bound, numbers))
        for k, (variable, kind_of) in enumerate(every):
            if variable and variable in later[k]:
                text = self.flat(kind_of, bound, numbers)
                if not text.startswith("Type"):
                    kinds.append(numbers.get(bound[variable], "_") + ":" + text)
        text = " → ".join(shown) + " | " + ", ".join(sorted(kinds))
        if not self.relates(result, every) or "abbrev" in marks or "unfoldable" in marks:
            lines = []
            for clause in clauses:
                left, _, right = clause.partition(" = ")
                inner = dict(bound)
                inner[name] = ("itself", 0)
                nest = groups(tokens_of(left))
                for word in names_in(nest, set()):
                    if word not in self.uses and word not in self.operators and re.match(r"^[a-z]\w*'?$", word) and word not in inner:
                        inner[word] = (word, len(lines), "clause")
                lines.append(self.flat(nest, inner, numbers) + " = " + self.flat(groups(tokens_of(right)), inner, numbers))
            text += " where " + "; ".join(lines)
        return text

    def relates(self, result, every):
        words = names_in(result, set())
        for _, kind in every:
            names_in(kind, words)
        return any(w in RELATIONS or (w[:1].isupper() and w in self.uses and w not in PLAIN_TYPES) for w in words)


def statements(folder, prefix):
    for where, _, files in sorted(os.walk(folder)):
        for file in sorted(files):
            if file.endswith(".antt") and file not in ("Answers.antt", "Invariants.antt", "Proof.antt"):
                yield from statements_of(os.path.join(where, file), prefix)


def statements_of(path, prefix):
    text = open(path, encoding="utf-8").read()
    uses, modules = read_uses(text)
    found = list(items_of(text))
    local = {item[2] for item in found} | set(re.findall(r"^ *(?:pub )?(?:data|record) +(\S+)", text, re.M))
    for line, outer, name, binders, kind, clauses, marks in found:
        if "abbrev" in marks and re.match(r"^Type \d+$", kind) and not any(w in RELATIONS for w in names_in([groups(tokens_of(" ".join(clauses)))], set())):
            continue
        canon = Canon(uses, modules, set() if prefix else local - {name})
        statement = canon.statement(outer, binders, kind, clauses, marks, name)
        yield path, line, name, statement, canon.generic, "pub" in marks
    for line, name, binders, kind, clauses, marks in inner_items_of(text):
        canon = Canon(uses, modules, set() if prefix else local - {name})
        statement = canon.statement("", binders, kind, clauses, marks, name)
        if not canon.free:
            yield path, line, name, statement, canon.generic, False


def library_statements():
    """The statements of the kit's std, with those that it takes over from other libraries: statement -> (import, name)."""
    folder = os.path.join(KIT, "rattle")
    found = {}

    def add(statement, module, name):
        # nearer homes first; ByRecursion is a stopgap that the kit will drop, and Paths can't be imported
        if re.match(r"Rattle\.std\.(specs|proofs\.(lemmas|Common|Math))", module):
            place = (len(module), module, name)
            found[statement] = min(found.get(statement, place), place)

    wanted = defaultdict(list)
    for part in ("proofs", "specs"):
        for path, line, name, statement, _, public in statements(os.path.join(folder, "std", part), "std"):
            if not public:
                continue
            module = "Rattle.std." + os.path.relpath(path, os.path.join(folder, "std"))[:-5].replace("/", ".")
            add(statement, module, name)
        for where, _, files in os.walk(os.path.join(folder, "std", part)):
            for file in files:
                if file.endswith(".antt"):
                    path = os.path.join(where, file)
                    module = "Rattle.std." + os.path.relpath(path, os.path.join(folder, "std"))[:-5].replace("/", ".")
                    for source, items in re.findall(r"^pub use +([^\s{;]+?)\.\{([^}]*)\}", open(path, encoding="utf-8").read(), re.M):
                        for item in items.split(","):
                            words = item.split()
                            if words:
                                wanted["/".join(source.split(".")[-2:]) + ".antt"].append((words[0], module, words[-1]))
    for where, _, files in os.walk(folder):
        for file in files:
            path = os.path.join(where, file)
            key = "/".join(path.split("/")[-2:])
            if key in wanted:
                names = {old: (module, new) for old, module, new in wanted[key]}
                for _, _, name, statement, _, _ in statements_of(path, True):
                    if name in names:
                        add(statement, *names[name])
    return found


def parts_of(statement):
    """What is stated, and the types of its variables, of a statement without clauses."""
    if " where " in statement:
        return None
    shown, _, kinds = statement.partition(" | ")
    return shown, dict(re.findall(r"(v\d+):(.*?)(?=, v\d+:|$)", kinds))


def is_instance(general, special):
    """Whether the types of the one are those of the other with types put for type variables."""
    if general.keys() != special.keys():
        return False
    seen = set()

    def wild(found):
        name = found.group(0)
        if name in general:
            return name
        if name in seen:
            return "(?P=%s)" % name
        seen.add(name)
        return "(?P<%s>.+?)" % name

    pattern = "\n".join(re.sub(r"v\d+", wild, re.escape(kind)) for _, kind in sorted(general.items()))
    return bool(re.fullmatch(pattern, "\n".join(kind for _, kind in sorted(special.items()))))


def print_instances(every, library):
    """Statements that are one of ae_base or of the kit's std, at types of their own."""
    general = defaultdict(list)
    for statement, (_, module, name) in library.items():
        if parts_of(statement):
            general[parts_of(statement)[0]].append((parts_of(statement)[1], "use %s.{%s}" % (module, name), statement))
    for statement, places in every.items():
        if parts_of(statement) and any(path.startswith("crates/%s/" % SHARED) for path, _, _ in places):
            path, line, name = places[0]
            general[parts_of(statement)[0]].append((parts_of(statement)[1], "%s:%d %s" % (path, line, name), statement))
    count = 0
    for statement, places in sorted(every.items(), key=lambda e: e[1][0]):
        if not parts_of(statement):
            continue
        shown, kinds = parts_of(statement)
        for types, home_of, whole in general.get(shown, []):
            if whole != statement and is_instance(types, kinds):
                count += len(places)
                print("an instance of %s : %s" % (home_of, statement))
                for place in places:
                    print("    %s:%d %s" % place)
                break
    print("instances of what ae_base or the kit proves: %d" % count)


def main(arguments):
    seen, every = defaultdict(list), defaultdict(list)
    crates = os.path.join(ROOT, "crates")
    per_crate = defaultdict(int)
    for crate in sorted(os.listdir(crates)):
        for part in ("specs", "proofs"):
            for path, line, name, statement, generic, _ in statements(os.path.join(crates, crate, part), crate == SHARED):
                every[statement].append((os.path.relpath(path, ROOT), line, name))
                if generic or crate == SHARED:
                    per_crate[crate] += 1
                    seen[statement].append((os.path.relpath(path, ROOT), line, name))
    if "--all" in arguments:
        for statement, places in sorted(seen.items(), key=lambda e: e[1][0]):
            for path, line, name in places:
                print(f"{path}:{line} {name} : {statement}")
        return 0
    library = library_statements() if "--library" in arguments else {}
    known = 0
    for statement, places in sorted(seen.items(), key=lambda e: e[1][0]):
        if statement in library:
            known += len(places)
            print("in the kit: use %s.{%s} : %s" % (*library[statement][1:], statement))
            for place in places:
                print("    %s:%d %s" % place)
    if "--library" in arguments:
        print_instances(every, library)
    groups_found = {s: p for s, p in seen.items() if len(p) > 1}
    copies = sum(len(p) - 1 for p in groups_found.values())
    for statement, places in sorted(groups_found.items(), key=lambda e: (-len(e[1]), e[1][0])):
        print(statement)
        for place in places:
            print("    %s:%d %s" % place)
    across = [p for p in groups_found.values() if len({q[0].split("/")[1] for q in p}) > 1]
    print("statements over library types alone: %d; standing more than once: %d (%d copies too many), across crates: %d" % (
        sum(per_crate.values()), len(groups_found), copies, len(across)))
    if "--library" in arguments:
        print("copies of what the kit proves: %d" % known)
    return 1 if groups_found else 0


if __name__ == "__main__":
    sys.exit(main(sys.argv[1:]))
