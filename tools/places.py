#!/usr/bin/env python3
# The places that docs/DESIGN-PASS.md counts: places.py [COMMIT] reads src/ of that commit, or of the working tree. With -v each place is printed.
import re, subprocess, sys

args = [a for a in sys.argv[1:] if a != "-v"]
verbose = "-v" in sys.argv
commit = args[0] if args else None


def run(*words):
    return subprocess.run(words, capture_output=True, text=True, check=True).stdout


def sources():
    if commit:
        names = run("git", "ls-tree", "-r", "--name-only", commit, "crates").split()
        names = [n for n in names if re.fullmatch(r"crates/\w+/src/\w+\.rt", n)]
        return [(n, run("git", "show", commit + ":" + n)) for n in sorted(names)]
    names = run("git", "ls-files", "crates").split()
    names = [n for n in names if re.fullmatch(r"crates/\w+/src/\w+\.rt", n)]
    return [(n, open(n).read()) for n in sorted(names)]


files = sources()


def lines():
    for name, text in files:
        for number, line in enumerate(text.split("\n"), 1):
            if not line.strip().startswith("//") and not line.startswith("ghost use"):
                yield name, number, line


def report(what, places):
    print("%-4d %s" % (len(places), what))
    if verbose:
        for place in places:
            print("       " + place)


def matching(pattern):
    return ["%s:%d: %s" % (n.split("/")[1], i, l.strip()) for n, i, l in lines() if re.search(pattern, l)]


print("1. Option, Result, enums")
report("enums of our own", matching(r"^(pub )?enum "))
report("variants that are a refusal or nothing", matching(r"^    (Refused\(u8\)|Bad\((Fault|Trouble)\)|Bad \{|NoJob|Nothing|Idle|TooLong|End|AtEnd|NonePending|NoneNamed|NoCall|Accepted),?"))
report("bool fields and parameters", matching(r"\b\w+: bool\b"))
report("numbers for kinds, refusals, words, steps", matching(r"\b(refusal|number|result|reason|call|called|named|letter|kind|slot|word|first|third): (u8|u64|usize)\b(?!.*&self)|^const [A-Z_]+: (u8|u64|usize) = [0-9]+;$|^fn \w*(refusal|known|which)\w*\(.*-> (u8|usize)"))

print("2. twins: functions of the same shape, all names and numbers taken off")
TOKEN = re.compile(r"b?'(?:\\.|[^'])'|b?\"(?:\\.|[^\"])*\"|[A-Za-z_]\w*|\d+|[^\s\w]")
WORDS = set("fn pub if else while for in match let mut return loop break as struct impl self Self".split())


def shape(text):
    names, out = {}, []
    for t in TOKEN.findall(text):
        if t in WORDS or not re.match(r"[\w'\"]|b['\"]", t):
            out.append(t)
        else:
            out.append("n%d" % names.setdefault(t, len(names)))
    return " ".join(out)


def functions():
    for name, text in files:
        text = re.sub(r"//.*", "", text)
        for m in re.finditer(r"^( *)(pub )?(extern \"C\" )?(const )?fn (\w+)[^\n]*(?:.|\n)*?\n\1\}", text, re.M):
            body = m.group(0)
            head, _, rest = body.partition("\n" + m.group(1) + "{")
            clauses = re.search(r"\n *(requires|ensures)\b", head)
            yield name.split("/")[1] + "::" + m.group(5), rest if clauses else body.partition("{")[2]


groups = {}
for name, body in functions():
    s = shape(body)
    if len(s.split()) >= 18:
        groups.setdefault(s, []).append(name)
twins = sorted(", ".join(g) for g in groups.values() if len(g) > 1)
report("groups of two or more", twins)

print("3. loops")
report("while and loop", matching(r"^\s*('\w+: )?(while\b.*|loop) \{"))
report("for", matching(r"^\s*('\w+: )?for\b.* in\b"))

print("4. equality, order, copying, conversion, printing by hand")
report("functions that only convert, compare or make a blank", matching(r"^\s*(pub )?fn (same|greater|wide|long|small|up|is_earlier|no_line|blank|is_accepted|moved|is_digit|is_blank|is_end|plain|is_done|released_in|phase_in|placed_job|runs_in|task_in|due_in|number_of|called_of|answer_for|verdict_for|reason_for|why_for|stepped_for|running_in|answer_in|written_in|byte_at|line_ends|is_long|meant|hex_digit|counted|fine)\("))
report("derives beside Clone, Copy", matching(r"derive\(.*(PartialEq|Default|PartialOrd)"))

print("5. facts and parameters that repeat")
clauses = {}
for n, i, l in lines():
    m = re.match(r"\s+((?:requires|ensures)\b.*)", l)
    if m:
        clauses.setdefault(m.group(1), []).append(n.split("/")[1])
report("clauses that stand three times or more", ["%d x %s" % (len(v), k) for k, v in sorted(clauses.items()) if len(v) >= 3])
report("a lent buffer and a place in it as two parameters", matching(r"(out|room|buf): &mut \[u8(; (print::)?ROOM)?\].*\b(at|from|n|start): usize|^    out: &mut \[u8; ROOM\],$"))
report("an array and a count as two parameters", matching(r"\[\w+; [\w:]+\],.*\b(n|count): usize"))

print("6. arrays with a count or a place beside them")
report("fields that are arrays", matching(r"^    (pub )?\w+: \[\w+; \w+\],"))

print("7. switches on which step to run")
report("letters, words and kinds compared", matching(r"\b(letter|first|third|word|kind|slot|script::byte_at\(text, \d\)) [=<]=? |\bmatch (letter|script::byte_at.*|call|from)\b"))
