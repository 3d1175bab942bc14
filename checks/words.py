"""words: looks up each word that the program writes, and each kind of refusal, in docs/DEFINITIONS.md.

A table there has a row for each word: the word as a line has it, its rule, its definition and its contract. The heading
of a table names, in back-ticks, the outputs and the lists of kinds that its rows are of. Words and kinds are collected
from the sources:

    Words: the strings of `codes "..."` that the definition of an output's text reaches, as words.toml names it. Of a
        function with an equation for each kind of line, those of the kinds that the text has. The contract of
        basin_main has to reach these definitions, each command has to have one, and the words have to be those that the
        code writes: the strings that a line or a sink is given in crates/*/src, and those of names.
    Kinds: the variants of each list in crates/*/src whose name says that it is one of refusals or endings.

It fails for a word or kind without a row, for a row whose word no output has, for a word of the code without a
definition or the other way round, and for what is wrong in the cells of a row:

    `NAME` (`FILE`): there has to be a definition of that name in that file; `RECORD.FIELD` is a field.
    `CRATE::CALL` clause `NAME`, proof `FILE`: the call has to be public, have that clause, and have it proved in that
        file. If no clause is named, the call has one without a name. If the prover finds the proof by itself, `FILE` is
        the word auto, and files after it have proofs of what it uses.
    One clause at least has to reach each definition of the row, and the clauses of each call one of them at least.
    What no contract pins has, in place of a contract, the words "tested only", and where.
"""
import functools
import glob
import os
import re

from beside.common import ROOT
from checks import harness
from checks.harness import read, tried

PAGE = "docs/DEFINITIONS.md"
OUTPUTS, = harness.table("words", "OUTPUTS")
# What the clauses `writes` and `ends` of the program's contract say: these definitions have to reach all of the above.
HEADLINE = [("crates/basin_cli/specs/Outcome.antt", name) for name in ("row", "Ends")]
COMMANDS = "crates/basin_cli/src/command.rt"
KINDS = re.compile(r"pub enum (\w*(?:Fault|Refused|RefutedKind|Finding|Ending|Status|Stop|BadLine))\b[^{]*\{")
# Crates that write no output, and the reader's own list of the words of a result.
NO_WRITERS = re.compile(r"crates/(test_support|tests_\w+|basin_gen|water_text|result_reader)/|/tests\.rt$")
# What the code gives a line or a sink, and the calls that answer a name: the strings in these.
GIVEN = re.compile(r'(?:\.word|\bput(?:_\w+)?(?:::<[^>]*>)?|Value::string)\(([^;]*?)\)(?:[;,?\n]|$)', re.M)
NAMED = re.compile(r"fn \w+\([^)]*\) -> &'static (?:str|\[u8\])\n(.*?)^ *\}\n", re.M | re.S)
# A name at the left of a definition, a signature, an import.
EQUATION = re.compile(r"([\w'-]+)(?=[\s=])(.*?)(?<![\w≡])=(?=\s)(.*)", re.S)
SIGNATURE = re.compile(r"(?:(?:abbrev|unfoldable|mutual)\s+)*(?:pub\s+)?([\w'-]+) :")
WHOLE = re.compile(r"pub (?:record|data) ([\w'-]+)(.*)", re.S)
IMPORT = re.compile(r"use Rattle\.(\w+)\.specs\.([\w.]+?)(?:\.\{([^}]*)\}| as ([\w'-]+))?;?$", re.M)
CLAUSE = re.compile(r"\bensures (\w*) ?\{(.*?)(?=^ *(?:ensures|requires)\b|\Z)", re.M | re.S)
TOKEN = re.compile(r"[A-Za-z_][\w'-]*(?:\.[A-Za-z_][\w'-]*)?")
CONTRACT = re.compile(r"`(\w+(?:::\w+)+)`(?: clauses? ((?:`\w+`(?:, )?)+))?,? proof ((?:auto|`[\w/]+`)(?:, `[\w/]+`)*)")
GROUP = re.compile(r"((?:`[\w.'-]+`(?:, )?)+) \(`([\w/]+)`\)")
def no_comments(text):
    return re.sub(r"(?m)(--|//).*$", "", text)

class Spec:
    """A file of definitions, or of code: what each definition is, equation by equation, and what it imports."""

    def __init__(self, path):
        text = no_comments(read(path))
        self.equations, self.names, self.of_others, self.modules, self.kinds = {}, {}, {}, {}, {}
        for chunk in re.split(r"\n(?=\S)", text) if path.endswith(".antt") else []:
            if chunk.startswith("use "):
                continue
            if whole := WHOLE.match(chunk):
                self.names[whole[1]] = set(re.findall(r"^\s+(?:pub )?([\w'-]+) :", whole[2], re.M))
                self.equations.setdefault(whole[1], []).append(("", whole[2]))
            elif signature := SIGNATURE.match(chunk):
                self.names.setdefault(signature[1], set())
            elif equation := EQUATION.match(chunk):
                self.equations.setdefault(equation[1], []).append((equation[2], equation[3]))
        for crate, module, names, alias in IMPORT.findall(text):
            file = f"crates/{crate}/specs/{module.replace('.', '/')}.antt"
            listed = re.findall(r"[\w'-]+", names)
            if module.endswith(".TheVariants"):
                self.kinds.update({name: (crate, module, name) for name in listed})
                self.modules.update({alias: (crate, module)} if alias else {})
            elif os.path.exists(file):
                self.of_others.update({name: file for name in listed})
                self.modules.update({alias: file} if alias else {})

    def kind(self, token):
        """The variant that a token names: its list, and its name."""
        head, _, name = token.partition(".")
        if name[:1].isupper() and isinstance(self.modules.get(head), tuple):
            return self.modules[head], name
        return (self.kinds[token][:2], token) if token in self.kinds else None

    def definition(self, path, token):
        """The definition that a token names: its file, and its name."""
        head, _, name = token.partition(".")
        if name and isinstance(self.modules.get(head), str):
            return self.modules[head], name
        if head in self.equations:
            return path, head
        return (self.of_others[head], head) if head in self.of_others else None

@functools.cache
def spec(path):
    return Spec(path)

def reached(roots, chosen):
    """The right sides that some definitions reach, the variants that they name, and the definitions. Of a function with
    an equation for each variant, those of the chosen variants count, or all where none is chosen of its list."""
    todo, seen, sides, named = list(roots), set(roots), [], {}
    while todo:
        path, name = todo.pop()
        here = spec(path)
        for left, right in here.equations.get(name, []):
            of_left = [here.kind(token) for token in TOKEN.findall(left)]
            if any(kind and chosen.get(kind[0]) and kind[1] not in chosen[kind[0]] for kind in of_left):
                continue
            sides.append(right)
            for token in TOKEN.findall(re.sub(r'"[^"]*"', "", right)):
                if kind := here.kind(token):
                    named.setdefault(kind[0], set()).add(kind[1])
                elif (there := here.definition(path, token)) and there not in seen:
                    seen.add(there)
                    todo.append(there)
    return sides, named, seen

def phrase(literal):
    return literal.replace("\\n", "").strip()

def is_word(text):
    return text == "-" or re.search("[A-Za-z]", text)

def words_of(output, of_headline):
    """The words of an output, by the definition of its text."""
    roots = []
    for root in OUTPUTS[output]:
        file, _, name = root.partition(".")
        roots.append((f"crates/{file}.antt", name))
        tried(f"the contract of basin_main reaches `{name}` of {file}", roots[-1] in of_headline)
    _, named, _ = reached(roots, {})
    sides, _, _ = reached(roots, named)
    return {phrase(text) for side in sides for text in re.findall(r'codes "([^"]*)"', side) if is_word(phrase(text))}

def sources():
    return sorted(glob.glob("crates/*/src/**/*.rt", recursive=True))

def written():
    """The words that the code writes, each with its file."""
    words = {}
    for path in sources():
        if NO_WRITERS.search(path):
            continue
        code = re.sub(r"(?m)^.*\bghost use .*$", "", no_comments(read(path)))
        bodies = re.sub(r"(?m)^ *(?:ensures|requires)\b.*(?:(?<!;)\n(?! *(?:ensures|requires|\{)).*)*", "", code)
        for part in [*GIVEN.findall(bodies), *NAMED.findall(bodies)]:
            for text in re.findall(r'"([^"]*)"', part):
                for word in filter(is_word, re.split(r"[\s:]+", phrase(text))):
                    words.setdefault(word, path)
    return words

def kinds():
    """The lists of refusals and endings with their variants."""
    found = {}
    for path in sources():
        if re.search(r"crates/(test_support|tests_\w+)/", path):
            continue
        code = no_comments(read(path))
        for match in KINDS.finditer(code):
            depth, body = 1, ""
            for sign in code[match.end():]:
                depth += {"{": 1, "(": 1, "}": -1, ")": -1}.get(sign, 0)
                if depth == 0:
                    break
                body += sign if depth == 1 else ""
            found[match[1]] = re.findall(r"\b([A-Z]\w*)", body)
    return found

def rows():
    """The rows of the tables: line number, what the heading names, and the four cells."""
    heading, in_table = [], False
    for number, line in enumerate(read(PAGE).split("\n"), 1):
        if line.startswith("#"):
            heading = re.findall(r"`([^`]+)`", line)
        if re.fullmatch(r"\| (word|kind) \| rule \| definition \| contract \|", line):
            in_table = True
        elif not line.startswith("|"):
            in_table = False
        elif in_table and not line.startswith("|---"):
            yield number, heading, [cell.strip() for cell in line.strip("|").split("|")]

@functools.cache
def calls(crate):
    """The public calls of a crate: by name the file, the type and the clauses of each, with what they say."""
    found = {}
    for path in glob.glob(f"crates/{crate}/src/**/*.rt", recursive=True):
        code = no_comments(read(path))
        for match in re.finditer(r"^( *)(pub )?fn (\w+)", code, re.M):
            head = re.split(r"^ *\{\}?$|;$", code[match.start():], maxsplit=1, flags=re.M)[0]
            types = re.findall(r"^(?:pub (trait)|impl)(?:<[^>]*>)? (?:\w+(?:<[^>]*>)? for )?(\w+)",
                               code[:match.start()], re.M)
            in_trait, of_type = types[-1] if match[1] and types else ("", "")
            if not match[2] and not in_trait:
                continue
            found.setdefault(match[3], []).append((path, of_type, dict(CLAUSE.findall(head))))
    return found

def proved_in(crate, call, of_type, clause):
    """The files in which a clause of a call is proved, as far as that isn't left to the prover."""
    files = []
    for path in glob.glob(f"crates/{crate}/proofs/**/{call}/Answers.antt", recursive=True):
        if of_type and f"/{of_type}/" not in path:
            continue
        goals = [goal for goal in re.findall(r"goal\.(\S+)", read(path)) if goal.startswith("returns")]
        if any("-clause-" not in goal or (clause and goal.endswith(f"-clause-{clause}")) for goal in goals):
            files.append(path[len("crates/"):-len(".antt")])
    return files

@functools.cache
def said(path, clause):
    """The definitions that a clause in a file of code reaches."""
    there = (spec(path).definition(path, token) for token in TOKEN.findall(clause))
    return reached([definition for definition in there if definition], {})[2]

def contract_faults(cell, definitions):
    """What isn't there of a cell of contracts. The clauses of each call have to reach one of some definitions, and each
    of these has to be reached by a clause."""
    if re.match("tested only", cell):
        return
    by_all = set()
    if CONTRACT.sub("", cell).strip("; .") or not CONTRACT.search(cell):
        yield f"the contract `{CONTRACT.sub('', cell).strip('; .') or cell}` isn't of the form"
    for path, clauses, proof in CONTRACT.findall(cell):
        crate, *inner, call = path.split("::")
        files = re.findall(r"`([^`]+)`", proof)
        for file in files:
            if not os.path.exists(f"crates/{file}.antt"):
                yield f"the file `{file}` isn't there"
        found = [of for of in calls(crate).get(call, []) if all(
            name == of[1] or f"/{name}.rt" in of[0] or f"/{name}/" in of[0] for name in inner)]
        if not found:
            yield f"the call `{path}` isn't there"
            continue
        by_these = set()
        for clause in re.findall(r"\w+", clauses) or [""]:
            having = [of for of in found if clause in of[2]]
            if not having:
                yield f"`{path}` has no clause `{clause}`" if clause else f"`{path}` has no clause without a name"
                continue
            by_these = by_these.union(*(said(of[0], of[2][clause]) for of in having))
            proofs = [file for of in having for file in proved_in(crate, call, of[1], clause)]
            if proof.startswith("auto") and proofs:
                yield f"`{path}` is proved in `{proofs[0]}`, not by itself"
            if not proof.startswith("auto") and not set(proofs) & set(files):
                yield f"`{path}` clause `{clause}` isn't proved in {proof}"
        by_all |= by_these
        if not by_these & definitions:
            yield f"`{path}` {f'clause {clauses} ' if clauses else ''}says nothing of what the row defines"
    for file, name in sorted(definitions - by_all):
        yield f"no clause of the row speaks of `{name}`"

def definitions_in(cell):
    """The definitions of a cell, each with its file and its field, and what is left of the cell."""
    found = []
    for names, file in GROUP.findall(cell):
        for name in re.findall(r"`([^`]+)`", names):
            name, _, field = name.partition(".")
            found.append((f"crates/{file}.antt", name, field))
    return found, GROUP.sub("", cell)

def definition_faults(cell):
    """What isn't there of a cell of definitions."""
    found, rest = definitions_in(cell)
    if not found or rest.strip(", "):
        yield f"the definition `{cell}` isn't of the form"
    for path, name, field in found:
        if not os.path.exists(path):
            yield f"the file `{path}` isn't there"
            continue
        known = spec(path).names
        if name not in known or (field and field not in known[name]):
            yield f"`{name}{'.' if field else ''}{field}` isn't defined in `{path}`"

def main(room):
    os.chdir(ROOT)
    _, _, of_headline = reached(HEADLINE, {})
    outputs = {output: words_of(output, of_headline) for output in OUTPUTS}
    commands = set(re.findall(r'\bword == "(\w+)"', read(COMMANDS)))
    tried("checks/words.toml has each command", commands == set(outputs) - {"standard error"}, commands)
    lists = kinds()
    code = written()
    texts = set().union(*outputs.values())
    defined = {word for text in texts for word in re.split(r"[\s:]+", text) if is_word(word)}
    for word in sorted({*code, *defined}):
        is_both = word in code and word in defined
        tried(f"`{word}` stands in a definition of a text, and in code that writes it", is_both, code.get(word))
    words_seen, kinds_seen = {output: set() for output in outputs}, {name: set() for name in lists}
    for number, heading, cells in rows():
        if not tried(f"{PAGE}:{number}: the row has four cells", len(cells) == 4 and all(cells)):
            continue
        for token in re.findall(r"`([^`]+)`", cells[0]):
            found = False
            for output in (name for name in heading if name in outputs):
                hits = [text for text in outputs[output] if token == text or token.startswith(text + " ")]
                # of several the longest is meant, as `basin: PartYear` and not `basin:`
                words_seen[output].update(sorted(hits, key=len)[-1:])
                found |= bool(hits)
            of_list, _, variant = token.rpartition("::")
            variant = variant.split()[0]
            for name in (name for name in heading if name in lists and of_list in ("", name)):
                if variant in lists[name]:
                    kinds_seen[name].add(variant)
                    found = True
            tried(f"{PAGE}:{number}: an output has `{token}`", found)
        named = [(path, name) for path, name, _ in definitions_in(cells[2])[0] if os.path.exists(path)]
        defined_here = {(path, name) for path, name in named if name in spec(path).names}
        faults = [*definition_faults(cells[2]), *contract_faults(cells[3], defined_here)]
        tried(f"{PAGE}:{number}: what the row names is there", not faults, "; ".join(faults))
    for output, words in outputs.items():
        for word in sorted(words):
            tried(f"the word `{word}` of {output} has a row", word in words_seen[output])
    for name, variants in lists.items():
        for kind in variants:
            tried(f"the kind `{name}::{kind}` has a row", kind in kinds_seen[name])
