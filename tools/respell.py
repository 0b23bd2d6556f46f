#!/usr/bin/env python3
# Brings this repository's own names to the kit's spelling: python3 tools/respell.py, once, after the kit's port.py.
#
# Words are in snake case: a camel case word that begins small, a record's field, a lemma's name. A dash stays in a lemma's name
# where it joins the names of two functions, as in `bits-append`. Names that would fall together are in FALLS. Functions of src/,
# exported names, strings, inputs and outputs keep their names. Must-fail edits and wrong/ are turned elsewhere.
import glob, os, re, subprocess

# names that would fall together with a field, or with another name
FALLS = {
    "beginData": "begin_data_lem", "continueData": "continue_data_lem", "messageOctets": "message_octets_lem",
    "inFlight": "in_flight_lem", "beginBits": "begin_bits_lem",
    "goes_on": "goes_on_lem", "let_through": "let_through_lem", "such_in": "such_in_lem", "address_on": "address_on_lem",
    "header-on": "header_on_lem", "next-echo": "next_echo",
    "CancelAll": "CancelAll", "CancelTransaction": "CancelTransaction",
}
# the library's functions that a lemma's name may join
WORDS = set("append nil cons take drop length map get_or set replicate min max zero suc mod div".split())
DECLARED = re.compile(r"^ *(?:(?:abbrev|unfoldable|pub|record|data|ruleset)\s+)*([^\s(){}:;.,\[\]|]+)\s*(?:[({\[].*)?:(?!=)")
TOKEN = re.compile(r"[^\s(){}.,;:\[\]λ⌜⌝|`\"]+")


def snake(n):
    n = re.sub(r"(?<=[a-z0-9])([A-Z])(?=[A-Z][a-z])", r"\1_", n)
    return re.sub(r"(?<=[a-z0-9])([A-Z])", r"_\1", n).lower() if n[:1].islower() else n


def small_camel(n):
    return n[0].islower() and re.search("[a-z0-9][A-Z]", n)


files = sorted(glob.glob("crates/*/specs/*.antt")) + sorted(glob.glob("crates/*/proofs/*.antt"))
functions, lemmas, fields = set(), set(), set()
for f in files:
    block = None
    for line in open(f):
        if line.startswith(("--", "use ", "open ", "pub use", "module ", "unfolding")) or line.strip().startswith(("let ", "in ")):
            continue
        m = DECLARED.match(line)
        if re.match(r"\S", line):
            block = re.search(r"^(?:pub )?(record|data) ", line)
        if not m:
            continue
        if line.startswith("  ") and block:
            fields.add(m.group(1))
        elif "/specs/" in f and not block:
            functions.add(FALLS.get(m.group(1), snake(m.group(1))))
        elif not block:
            lemmas.add(m.group(1))

# the library's names: a lemma does not take one
library = set()
kit = os.path.dirname(subprocess.run(["rt", "doc"], capture_output=True, text=True).stdout.strip())
for f in glob.glob(kit + "/rattle/**/*.antt", recursive=True):
    for line in open(f, encoding="utf-8", errors="replace"):
        m = re.match(r"(?:(?:abbrev|unfoldable|pub|ruleset) )+([a-z][\w'-]*)", line)
        if m:
            library.add(m.group(1))

turned = {}
for n in sorted(lemmas | fields):
    if "-" in n and n not in library:
        parts = [snake(p) for p in n.split("-")]
        t = parts[0]
        for a, b in zip(parts, parts[1:]):
            joins = n in lemmas and n not in fields and (a in functions or a in WORDS) and (b in functions or b in WORDS)
            t += ("-" if joins else "_") + b
        if t in library or t in functions or t in lemmas or t in fields or t in turned.values():
            t = "-".join(parts)
        if t != n:
            turned[n] = t
turned.update(FALLS)


def word(t):
    if t in turned:
        return turned[t]
    return snake(t) if small_camel(t) else t


def turn(line, comment):
    if line.lstrip().startswith(comment):
        return re.sub(r"`[^`]*`", lambda m: TOKEN.sub(lambda t: word(t.group()), m.group()), line)
    return TOKEN.sub(lambda t: word(t.group()), line)


def goals(text):
    """Names that a function's proof declares: goals, which are the kit's to name."""
    return {m.group(1) for m in map(DECLARED.match, text.split("\n")) if m}


for f in files + sorted(glob.glob("crates/*/proofs/*/**/*.antt", recursive=True)):
    text = open(f).read()
    own = goals(text) if f.count("/") > 3 else set()
    lines = []
    for line in text.split("\n"):
        if own:
            line = re.sub(r"(?<![\w'-])(?:tie\.)?[^\s(){}.,;:\[\]λ|`\"]+", lambda m: m.group() if m.group() in own or m.group().startswith("tie.") else turn(m.group(), "--"), line)
        else:
            line = turn(line, "--")
        lines.append(line)
    open(f, "w").write("\n".join(lines))

# clauses and imports of src/, and backticks of its comments
CODE = re.compile(r"^\s*(//|requires|ensures|ghost)")
for f in sorted(glob.glob("crates/*/src/*.rt")):
    lines = [turn(line, "//") if CODE.match(line) or not re.search(r'"', line) else line for line in open(f).read().split("\n")]
    open(f, "w").write("\n".join(lines))

# what documents name in backticks
for f in ["README.md"] + sorted(glob.glob("docs/*.md") + glob.glob("oracle/*.md") + glob.glob("reports/*.md")):
    text = open(f).read()
    known = functions | fields | set(turned.values())
    def told(t):
        return word(t) if t in turned or small_camel(t) and word(t) in known else t
    parts = re.split(r"(```.*?```)", text, flags=re.S)
    for i in range(0, len(parts), 2):
        parts[i] = re.sub(r"`[^`\n]*`", lambda m: TOKEN.sub(lambda t: told(t.group()), m.group()), parts[i])
    open(f, "w").write("".join(parts))
print("respelled: %d names with a dash" % len(turned))
