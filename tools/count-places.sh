#!/usr/bin/env bash
# Counts, at the top of a checkout, the places of the eight points. For each sub-kind: its number of places, then each as file:line.
# What a pattern can't find is counted by a command that gets close; the line under the title says what is counted, and what it can't tell.
#   count.sh            all lists
#   count.sh --short    the table of numbers alone
# Only code is looked at: lines of comments and of `ghost use` don't count, and clauses only where it is said.
set -uo pipefail
export LC_ALL=C.UTF-8
short=no; [[ ${1:-} == --short ]] && short=yes
work=$(mktemp -d); trap 'rm -rf "$work"' EXIT
find crates/*/src -name '*.rt' | sort > "$work/files"

# A list of places on standard input: its title, its number, the list.
show() { # show ID TITLE
    cat > "$work/list"
    printf '%-5s %5d  %s\n' "$1" "$(wc -l < "$work/list")" "$2" >> "$work/table"
    [[ $short == yes ]] && return
    printf '\n## %s %s: %d\n' "$1" "$2" "$(wc -l < "$work/list")"
    cut -c1-230 "$work/list"
}

# Lines of code with a pattern: no comments, no ghost use, no use lists of names.
code() { # code PATTERN [PATTERN OF LINES TO LEAVE OUT]
    xargs grep -nE -- "$1" < "$work/files" \
        | grep -vE '^[^:]*:[0-9]+: *(//|ghost use|(pub )?use |requires|ensures)' \
        | { if [[ -n ${2:-} ]]; then grep -vE -- "$2"; else cat; fi; }
}

# A few lines of Python over all functions, structs and enums.
cat > "$work/items.py" <<'PY'
import re, sys, itertools, collections
files = open(sys.argv[1]).read().split()
class Fn: pass
fns, structs, enums = [], [], []

def close(t, i):                      # the place of the bracket that closes the one at i
    pairs = {'(': ')', '{': '}', '[': ']'}; o, c, d = t[i], pairs[t[i]], 0
    while True:
        d += (t[i] == o) - (t[i] == c)
        if d == 0: return i
        i += 1

def parts(t, sep):                    # t split at sep outside brackets
    out, d, last, i = [], 0, 0, 0
    while i < len(t):
        if t[i] in '([{<': d += 1
        if t[i] in ')]}' or (t[i] == '>' and t[i-1] not in '-='): d -= 1
        if d == 0 and t.startswith(sep, i): out.append(t[last:i]); last = i + len(sep)
        i += 1
    return [p.strip() for p in out + [t[last:]] if p.strip()]

def facts(t):                         # the facts of a clause: (A) × (B) is two
    t = re.sub(r'\s+', ' ', t).strip(); out = []
    d = last = 0
    for i, ch in enumerate(t):
        d += (ch in '([{') - (ch in ')]}')
        if d == 0 and ch == '×': out.append(t[last:i]); last = i + 1
    for p in out + [t[last:]]:
        p = p.strip()
        while p.startswith('(') and close(p, 0) == len(p) - 1: p = p[1:-1].strip()
        yield p

for f in files:
    text = open(f).read(); lines = text.split('\n')
    bare = re.sub(r'//[^\n]*', lambda m: ' ' * len(m.group()), text)      # comments blanked, places kept
    line = lambda i: text.count('\n', 0, i) + 1
    def above(n):                     # the comment above line n
        out, n = [], n - 2
        while n >= 0 and re.match(r'\s*(//|#\[)', lines[n]): out.insert(0, lines[n].strip()); n -= 1
        return ' '.join(out)
    for m in re.finditer(r'(?m)^ *(?:pub(?:\(crate\))? )?(?:extern "C" )?fn (\w+)', bare):
        x = Fn(); x.file, x.line, x.name, x.comment = f, line(m.start(1)), m.group(1), above(line(m.start(1)))
        x.public = 'pub fn' in m.group() or 'extern' in m.group()
        p, d = m.end(), 0
        while bare[p] != '(' or d:        # past the list of types, if there is one
            d += (bare[p] == '<') - (bare[p] == '>' and bare[p-1] != '-'); p += 1
        q = close(bare, p)
        x.params = [re.sub(r'\s+', ' ', a) for a in parts(bare[p+1:q], ',')]
        i, head = q + 1, ''
        while True:                   # clauses are blocks behind a word; the body is the block behind none
            b = re.compile(r'[{]|;(?= *\n)').search(bare, i); head = bare[i:b.start()]
            if b.group() == ';' : x.body = ''; x.end = x.line; break
            e = close(bare, b.start())
            if re.search(r'(requires|ensures|decreases)\s*\w*\s*$', head): i = e + 1; continue
            x.body = bare[b.start()+1:e]; x.at = line(b.start()); x.end = line(e); break
        sig = bare[q+1:b.start()] if x.body else bare[q+1:b.start()]
        x.answer = (re.match(r'\s*->\s*([^{]*?)\s*(?=requires|ensures|where|$)', re.sub(r'\s+', ' ', sig)) or [None, ''])[1]
        x.requires, x.ensures = [], []
        for k in re.finditer(r'(requires|ensures)\s*\w*\s*\{', sig):
            t = sig[k.end():close(sig, k.end() - 1)]
            (x.requires if k.group(1) == 'requires' else x.ensures).extend(facts(t))
        fns.append(x)
    for m in re.finditer(r'\b(struct|enum) (\w+)[^{;]*\{', bare):
        x = Fn(); x.file, x.line, x.name, x.comment = f, line(m.start()), m.group(2), above(line(m.start()))
        x.fields = parts(bare[m.end():close(bare, m.end() - 1)], ',')
        x.fields = [re.sub(r'\s+', ' ', re.sub(r'^pub(\(crate\))? ', '', a)) for a in x.fields]
        x.fields = [a for a in x.fields if not a.startswith('ghost ')]
        x.types = [a.split(':', 1)[1].strip() if ':' in a else a for a in x.fields]
        (structs if m.group(1) == 'struct' else enums).append(x)
    for x in fns:
        if x.file == f: x.lines = lines

def at(x, n=None, note=''): print(f'{x.file}:{n or x.line}: {x.name}{" " if note else ""}{note}')
def each(x, pattern, note=lambda m: re.sub(r'\s+', ' ', m.group())):      # places of a pattern in a body
    for m in re.finditer(pattern, x.body):
        at(x, x.at + x.body.count('\n', 0, m.start()), note(m))
NUMBER = r'^(usize|u8|u16|u32|u64)$'
PY
py() { { cat "$work/items.py"; cat; } > "$work/run.py"; python3 "$work/run.py" "$work/files"; }

# ---------------------------------------------------------------- 1a Option and Result by another name
py <<'PY' | show 1a.1 'own enums of two variants, one with a value: the shape of Option or Result'
for x in enums:
    if len(x.fields) == 2 and any(re.search(r'[({]', a) for a in x.fields): at(x, note=' | '.join(x.fields))
PY
py <<'PY' | show 1a.2 'a refusal handed on as it is: an arm or an `if let` that makes it again (a ? does it)'
for x in fns:
    each(x, r'(Answer::Refused \{ number, place \}|Err\((\w+)\)) => (\{\s*)?(return )?(Answer::Refused \{ number, place \}|Err\(\2\))')
    each(x, r'if let (Answer::Refused \{ number, place \}|Err\((\w+)\)) = [^{]*\{\s*return (Answer::Refused \{\s*number(: number)?,\s*place(: place)?,?\s*\}|Err\(\2\));\s*\}')
PY
py <<'PY' | show 1a.3 'a refusal handed on with another place, or in a struct'
for x in fns:
    each(x, r'if let (Answer::Refused \{ number, place \}|Err\(\w+\)) = [^{]*\{\s*return (?!Answer::Refused \{\s*number(: number)?,\s*place(: place)?,?\s*\}|Err\(\w+\))[^;]*;')
    each(x, r'Answer::Refused \{ number, place(: _)? \} => (?!Answer::Refused \{ number, place \})[^,]*,')
PY
code 'value_of\(' 'fn value_of' | show 1a.4 'value_of: an answer read as 0 where it is refused'

py <<'PY' | show 1a.5 'all tests of an answer by `match` or `if let`, those above among them'
for x in fns:
    each(x, r'if let (Answer::\w+|Ok|Err|Some|None)\b|match [^{]*\{\s*(Answer::\w+|Ok|Err|Some|None)\b')
PY

# ---------------------------------------------------------------- 1b a flag with a value beside
py <<'PY' | show 1b.1 'structs with a bool and other fields (some bools are values of their own: minus, verdict)'
for x in structs:
    if len(x.fields) > 1 and 'bool' in x.types: at(x, note='{ ' + ', '.join(x.fields) + ' }')
PY
py <<'PY' | show 1b.2 'structs with an answer, or a refusal number, beside values'
for x in structs:
    if len(x.fields) > 1 and ('Answer' in x.types or 'number: u32' in x.fields): at(x, note='{ ' + ', '.join(x.fields) + ' }')
PY
py <<'PY' | show 1b.3 'structs whose comment says which number stands for none'
for x in structs:
    if re.search(r'\bnone\b|nothing|\bor 0\b|0 and 0', x.comment) and not x.comment.startswith('// Kept'): at(x, note=x.comment[:150])
PY

# ---------------------------------------------------------------- 1c a number that stands for none
py <<'PY' | show 1c.1 'functions to a number whose clause is `first`: the number of rows or entries, or the end, for none'
for x in fns:
    if re.match(NUMBER, x.answer) and any(re.search(r'\bfirst \(', e) for e in x.ensures): at(x)
PY
py <<'PY' | show 1c.2 'other functions to a number whose comment (or the clause) says what stands for none'
words = r"for none|that is none|is none|where (there|it) (is|has) (none|no)|or the number of|or the end|or the row's own|, or 0|0 for|0 of a|0 where|0 if|past all|counts as empty|or itself|whatever its count"
for x in fns:
    if re.match(NUMBER, x.answer) and not any(re.search(r'\bfirst \(', e) for e in x.ensures):
        if re.search(words, x.comment): at(x, note=x.comment[:170])
PY
py <<'PY' | show 1c.3 'tests of a number for the one that means none (a place for 0, a search for its end): of what such a function gave, or of a place'
names = r'from_device|first_\w+|next_\w+|place_for|device_end|digit|parent_of|depth_of|place_on_way|place_of|place_under|last_equal|parent_number|noted'
for x in fns:
    v = set(re.findall(r'let (?:mut )?(\w+) = (?:%s)\(' % names, x.body))
    v |= set(re.findall(r'let (?:mut )?(\w+) = (?:parents|head|next|way\.place|starts|ends)\[', x.body))
    v |= {p.split(':')[0] for p in x.params if re.match(r'place: ', p)} | ({'at'} if 'next[j]' in x.body else set())
    v |= {'k', 'end'} & {p.split(':')[0] for p in x.params if 'u16' in ' '.join(x.params)}      # one more than a row's number
    for n in sorted(v):
        each(x, r'(\b%s (<|==|!=) (0|10|n|end|row)\b(?! \+)|\b0 < %s\b|LIMIT <= %s\b|\b%s < [\w.]+\.len\(\))' % (n, n, n, n))
    each(x, r'(parents\.(parent|depth) < n|place_of\([^()]*\) [!=]= 0)')
PY

# ---------------------------------------------------------------- 1d numbers for kinds, phases, modes, steps, refusals
code '\bkind [<=!]=? [0-9]|[0-9] <=? (\w+\.)?kind\b' | show 1d.1 'lines that test the kind of an entry against a number'
code '\bnumber: [0-9]+|\brefused\([0-9]' | show 1d.2 'refusals made by a number (0: none)'
code 'number == [0-9]+|first_plain\(.*, [0-9]+\)|RULE_CHECKS|^[^:]*parents.rt:[0-9]+: *(return 26;|return 0;|11$)|100 \+ number|number: u32' | show 1d.3 'other lines in which a number stands for a refusal'
code '\bphase: [0-9u]|\.phase [=<!]=? ?[0-9]' | show 1d.4 'lines with a phase of reading as a number'
code '\bmode (==|<=) [0-9]|[0-9] <= mode|parts_count\(.*, [0-9]\)' | show 1d.5 'lines with a mode of sending as a number'
code '\bmode: u(8|32)' | show 1d.6 'parameters that take a mode as a number'
code '\b(SET|ADD|REMOVE)\b' | show 1d.7 'lines with the kind of a step as a constant'
code '\.b (==|!=) 0\b|\bunder (==|!=) 0\b|\bTO_CONSTANT\b|\bTO_PARAMETER\b|\bANY_NAME\b' ':[0-9]+: *([A-Za-z_]+, )+[A-Za-z_]+,$' | show 1d.8 'lines with b or c of an entry as a kind: 0 for a variable or for roots, TO_CONSTANT, TO_PARAMETER, ANY_NAME'
code 'one_if\(|asked == 0|\basked: u8|keep: u8|kept\[[a-z]+\] == 0|keep == 0|\[i\] == 1\b|is_left\(.*== 0|\[1; |\] = 1;' | show 1d.9 'lines in which 0 and 1 stand for no and yes'

# ---------------------------------------------------------------- 2 twins
py <<'PY' | show 2.1 'function names that stand in two or more modules (a line a name)'
by = collections.defaultdict(list)
for x in fns: by[x.name].append(x)
for n, g in sorted(by.items()):
    if len({x.file for x in g}) > 1: print(n, ' '.join(f'{x.file}:{x.line}' for x in g))
PY
cat > "$work/shape.py" <<'PY'
KEEP = set('let mut if else while for in return match as true false fn self loop break continue usize u8 u16 u32 u64 bool'.split())
def shape(x, all_names):              # parameters' types and body, with names renamed in the order in which they come
    text = ' ; '.join(p.split(':', 1)[-1] for p in x.params) + ' -> ' + x.answer + ' : ' + x.body
    own = {p.split(':')[0].replace('mut ', '') for p in x.params} | set(re.findall(r'let (?:mut )?(\w+)', x.body)) | set(re.findall(r'\|&?(\w+)\|', x.body)) | {x.name}
    seen, out = {}, []
    text = re.sub(r'\b(\w+)(:)? \1\b', r'\1', text)
    for t in re.findall(r"b'[^']*'|\w+|[^\w\s]", text):
        if re.match(r'[A-Za-z_]', t) and t not in KEEP and (all_names or t in own): t = seen.setdefault(t, f'n{len(seen)}')
        elif all_names and re.match(r"\d|b'", t): t = seen.setdefault(t, f'n{len(seen)}')
        out.append(t)
    out = [t for i, t in enumerate(out) if not (t == ',' and out[i+1:i+2] in (['}'], [')'], [']']))]
    return ' '.join(out), len(re.findall(r'\w+', x.body))
def groups(all_names, least):
    by = collections.defaultdict(list)
    for x in fns:
        s, n = shape(x, all_names)
        if n >= least: by[s].append(x)
    return [g for g in by.values() if len(g) > 1]
PY
{ cat "$work/shape.py"; echo 'for g in groups(False, 1): print(" = ".join(f"{x.name} {x.file}:{x.line}" for x in g))'; } | py \
    | show 2.2 'groups of functions that are equal but for the names of parameters and locals (a line a group)'
{ cat "$work/shape.py"; echo 'for g in groups(True, 6): print(" ~ ".join(f"{x.name} {x.file}:{x.line}" for x in g))'; } | py \
    | show 2.3 'groups of functions of one shape: all names, numbers and fields renamed one for one (a line a group; some are no twins)'
{ cat "$work/shape.py"; cat <<'PY'
from difflib import SequenceMatcher
s = [(x, shape(x, True)) for x in fns]
s = [(x, t.split(':', 1)[1].split()) for x, (t, n) in s if n >= 12 and not x.name.startswith('gabzeril_')]
for (x, a), (y, b) in itertools.combinations(s, 2):
    if min(len(a), len(b)) / max(len(a), len(b)) < 0.75 or a == b: continue
    m = SequenceMatcher(None, a, b, autojunk=False)
    if m.quick_ratio() >= 0.9 and m.ratio() >= 0.9: print(f'{m.ratio():.2f} {x.name} {x.file}:{x.line} ~ {y.name} {y.file}:{y.line}')
PY
} | py | sort -r | show 2.4 'pairs of functions whose shapes are nine tenths the same (a line a pair; a place to look, no verdict)'
py <<'PY' | show 2.5 'groups of structs with fields of the same types (a line a group)'
by = collections.defaultdict(list)
for x in structs: by[tuple(sorted(x.types))].append(x)
for k, g in by.items():
    if len(g) > 1: print(', '.join(k), ': ', ' '.join(f'{x.name} {x.file}:{x.line}' for x in g))
PY
if command -v duplicates > /dev/null; then
    while read -r f; do mkdir -p "$work/copy/$(dirname "$f")"; cp "$f" "$work/copy/${f%.rt}.rs"; done < "$work/files"
    duplicates --repo "$work/copy" --seconds 60 --most 200 | grep -E '^D[0-9]' | grep -v 'boilerplate' | sed 's/\.rs:/.rt:/g'
else echo 'no duplicates on this machine'; fi | show 2.6 'pairs of places in src/ that share six lines or more, by the tool `duplicates` (a line a pair)'

# ---------------------------------------------------------------- 3 loops
cat > "$work/loops.py" <<'PY'
def loops():                          # each while loop: its function, place, test, and how it counts
    for x in fns:
        for m in re.finditer(r'\bwhile ([^{]*)\{', x.body):
            body = x.body[m.end():close(x.body, m.end() - 1)]
            test = m.group(1).strip(); how = 'other'
            c = re.match(r'^(\w+) < ', test)
            if c and re.search(r'(?m)^\s*%s \+= 1;\s*$' % c.group(1), body): how = 'up'
            c = re.match(r'^0 < (\w+)$', test)
            if c and re.search(r'(?m)^\s*%s -= 1;\s*$' % c.group(1), body): how = 'down'
            yield x, x.at + x.body.count('\n', 0, m.start()), test, how
PY
for k in 'up 3.1 while loops that count up by hand' 'down 3.2 while loops that count down by hand' 'other 3.3 other while loops: along a chain, by halves, until no more'; do
    read -r how id title <<< "$k"
    { cat "$work/loops.py"; echo "for x, n, test, how in loops():
    if how == '$how': at(x, n, 'while ' + test)"; } | py | show "$id" "$title"
done
code '\b(for \w+ in|for \(.*\) in)\b|\.(iter|iter_mut|find|any|all|map|zip|enumerate|position|chunks\w*|for_each|sum|count|filter|fold|rev|take_while|windows)\(' | show 3.4 'lines with a for, or a method of an iterator (the other way)'

# ---------------------------------------------------------------- 4 conversions, copies, equality, order, printing by hand
py <<'PY' | show 4.1 'functions that are a cast alone'
for x in fns:
    if re.match(r'^[\w.\[\]: *+]+ as \w+$', x.body.strip()): at(x, note=x.body.strip())
PY
py <<'PY' | show 4.2 'functions that turn a test into 1 or 0'
for x in fns:
    b = re.sub(r'\s+', ' ', x.body).strip()
    if re.match(r'^if ([^{}]*) \{ (return )?1;? \}( else)? \{? ?0 ?\}?$', b): at(x, note=b)
PY
py <<'PY' | show 4.3 'struct literals that copy two or more fields of one value (struct update does it)'
for x in fns:
    for m in re.finditer(r'\b([A-Z]\w+) \{', x.body):
        t = x.body[m.end():close(x.body, m.end() - 1)]
        c = collections.Counter(o for f, o in re.findall(r'\b(\w+): (\w+)\.\1\b', t))
        if c and max(c.values()) >= 2 and '..' not in t: at(x, x.at + x.body.count('\n', 0, m.start()), f'{m.group(1)}: {max(c.values())} fields of {c.most_common(1)[0][0]}')
PY
py <<'PY' | show 4.4 'struct literals read field by field from a run of words'
for x in fns:
    for m in re.finditer(r'\b([A-Z]\w+) \{', x.body):
        t = x.body[m.end():close(x.body, m.end() - 1)]
        if len(re.findall(r'\w+: \w+\[', t)) >= 3: at(x, x.at + x.body.count('\n', 0, m.start()), m.group(1))
PY
py <<'PY' | show 4.5 'rows or counts written field by field'
for x in fns:
    m = re.search(r'(\w+)\[\w+( \+ \w+)?\] = [^;]*;\s*\1\[[^;]*;\s*\1\[', x.body) or re.search(r'\[\s*(\w+(\.\w+)?( as \w+)?,\s*){4,}(\w+(\.\w+)?\s*)?\]', x.body)
    if m: at(x, x.at + x.body.count('\n', 0, m.start()), re.sub(r'\s+', ' ', m.group())[:80])
PY
code '^\s*(\w+): \1,?$|\b(\w+): \2 ?[,}]' | show 4.6 'fields written twice: name: name'
code '(\w+)\.(\w+) (==|<) (\w+)\.\2\b' '\.len\(\) <' | show 4.7 'lines that compare the same field of two values (equality or order by hand; some are a definition of the domain)'
py <<'PY' | show 4.8 'functions that read or write text byte by byte'
for x in fns:
    if re.search(r"b'|digit_at\(|power\(", x.body): at(x)
PY
code ' as (usize|u8|u16|u32|u64)\b' '#\[cycle' | show 4.9 'lines with a cast by `as` (widening and narrowing: a pattern cannot tell them apart)'

# ---------------------------------------------------------------- 5 facts and parameters that travel together
cat > "$work/facts.py" <<'PY'
def facts_by(key):
    by = collections.defaultdict(list)
    for x in fns:
        for t in dict.fromkeys(key(x, r) for r in x.requires): by[t].append(x)
    return sorted(by.items(), key=lambda k: -len(k[1]))
def typed(x, t):                      # parameters' names by their types, numbered
    seen = {}
    names = {p.split(':')[0].replace('mut ', ''): p.split(':', 1)[-1].strip() for p in x.params}
    for n in re.findall(r'[A-Za-z_]\w*', t):
        if n in names and n not in seen: seen[n] = f'<{names[n]}{len([m for m in seen if names[m] == names[n]]) or ""}>'
    return re.sub(r'(?<![\w.])[A-Za-z_]\w*', lambda m: seen.get(m.group(), m.group()), t)
PY
{ cat "$work/facts.py"; echo '
for t, g in facts_by(lambda x, r: r):
    if len(g) >= 3: print(len(g), "{", t, "}", " ".join(f"{x.file.split(chr(47), 1)[1]}:{x.line}:{x.name}" for x in g))'; } | py | show 5a.1 'facts of requires clauses whose text stands in three or more functions (a line a fact, its number of functions first)'
{ cat "$work/facts.py"; echo '
for t, g in facts_by(typed):
    if len(g) >= 3: print(len(g), "{", t, "}", " ".join(f"{x.file.split(chr(47), 1)[1]}:{x.line}:{x.name}" for x in g))'; } | py | show 5a.2 'the same where parameters may have other names of the same type'
py <<'PY' | show 5a.3 'functions with a requires clause'
for x in fns:
    if x.requires: at(x, note=f'{len(x.requires)} facts')
PY
cat > "$work/together.py" <<'PY'
sets = [(x, frozenset(p for p in x.params if ':' in p)) for x in fns if not x.name.startswith('gabzeril_')]
found = {a & b for (x, a), (y, b) in itertools.combinations(sets, 2) if len(a & b) >= 2}
rows = []
for g in found:
    h = [x for x, a in sets if g <= a]
    if len(h) >= 3: rows.append((len(h), ', '.join(sorted(g)), ' '.join(f'{x.file.split("/", 1)[1]}:{x.line}:{x.name}' for x in h)))
PY
py <<'PY' | show 5b.1 'pairs of parameters (name: type) that stand together in three or more functions of a crate and seldom apart: in three quarters of those that have either (a line a pair)'
by = collections.defaultdict(set)
for x in fns:
    for p in x.params:
        if ':' in p and not x.name.startswith('gabzeril_'): by[x.file.split('/')[1], p.replace('mut ', '')].add((x.file, x.line, x.name))
for ((c, p), a), ((d, q), b) in itertools.combinations(sorted(by.items()), 2):
    if c == d and len(a & b) >= 3 and len(a & b) >= 0.75 * len(a | b): print(c, f'{len(a & b)} of {len(a | b)}', p, '+', q, ' '.join(f'{f.split("/", 2)[2]}:{l}:{n}' for f, l, n in sorted(a & b)))
PY
py <<'PY' | show 5b.2 'functions of six or more parameters'
for x in fns:
    if len(x.params) >= 6: at(x, note=f'{len(x.params)} parameters')
PY

{ cat "$work/together.py"; echo 'for r in sorted(rows, reverse=True): print(*r)'; } | py | show 5b.3 'groups of two or more parameters (name: type) in three or more functions (a line a group, its number of functions first; a larger group has its own line)'

# ---------------------------------------------------------------- 6 buffers, parallel arrays, searches, places
py <<'PY' | show 6.1 'functions with a number beside a slice that a clause holds within its length (a part of a slice says it)'
for x in fns:
    numbers = {p.split(':')[0] for p in x.params if p.endswith(': usize')}
    for r in x.requires:
        m = re.match(r'^(?:row_words \* |entry_words \* )?(\w+)(?: \+ row_words| \+ entry_words)? ≤ (length|row_count) ', r)
        if m and m.group(1) in numbers: at(x, note=r)
PY
py <<'PY' | show 6.2 'functions that make two or more arrays side by side, or fill them'
for x in fns:
    made = re.findall(r'let mut (\w+) = \[0(?:u\d+)?; (\w+)\]', x.body)
    if len(made) >= 2: at(x, note=' '.join(f'{n}[{k}]' for n, k in made))
PY
py <<'PY' | show 6.3 'functions that take two or more parallel arrays (a number or a flag for each row)'
pairs = [('starts', 'ends'), ('head', 'next'), ('into', 'ups'), ('parents', 'ends'), ('parents', 'kept'), ('ups', 'next'), ('asked', 'out')]
for x in fns:
    names = {p.split(':')[0] for p in x.params if '[' in p}
    for a, b in pairs:
        if {a, b} <= names: at(x, note=f'{a}, {b}'); break
PY
code '\(high - low\) / 2|partition_point|binary_search' | show 6.4 'searches by halves (by hand, or by the library)'
code '= left / 2;' | show 6.5 'ranges walked by halves in a recursion'
code '\[u16; |\[0u16; |: &(mut )?\[u16\]|\[0; Bindings' | show 6.6 'lines with an array of 16-bit places or row numbers (0, or the row itself, is none)'
py <<'PY' | show 6.7 'structs with an array and a count beside it'
for x in structs:
    if any(t.startswith('[') for t in x.types) and any(re.match(NUMBER, t) for t in x.types): at(x, note='{ ' + ', '.join(x.fields) + ' }')
PY
code '(ROW_WORDS|ENTRY_WORDS|STEP_WORDS) \*|[/%] (ROW_WORDS|ENTRY_WORDS|STEP_WORDS)' | show 6.8 'lines that reckon with places of words: a row or an entry in a run of words'
code 'rules\[ENTRY_WORDS \*' | show 6.9 "walks over a set's rules by their counts"

# ---------------------------------------------------------------- 7 which step or check to run
py <<'PY' | show 7.1 'functions that test one value against two or more numbers or constants (some tests are of a range)'
for x in fns:
    by = collections.defaultdict(dict)
    for m in re.finditer(r'\b(\w+(?:\.\w+|\[\d\])?) (?:==|!=|<|<=) (\d+|[A-Z][A-Z_]+)\b', x.body): by[m.group(1)][m.group()] = 1
    for m in re.finditer(r'\b(\d+|[A-Z][A-Z_]+) (?:<|<=) (\w+\.\w+|\w+)\b', x.body): by[m.group(2)][m.group()] = 1
    for v, tests in by.items():
        if len(tests) >= 2: at(x, note=f'{v}: ' + '; '.join(tests))
PY
py <<'PY' | show 7.2 'functions with a bool parameter (some choose what is done, some are a value)'
for x in fns:
    b = [p for p in x.params if p.endswith(': bool')]
    if b: at(x, note=', '.join(b))
PY
code 'const \w+: \[(u8|u16|u32|usize|fn)|impl Fn|dyn ' 'b"' | show 7.3 'tables of numbers or functions, and closures as parameters'

# ---------------------------------------------------------------- 8 proofs
find crates/*/proofs -mindepth 3 -name Answers.antt | sort | while read -r f; do echo "$f: $(wc -l < "$f") lines"; done | show 8.1 "answers' files, proofs/MODULE/FUNCTION/Answers.antt (a crate of one file has proofs/FUNCTION/)"
find crates/*/proofs -mindepth 2 -maxdepth 2 -name Answers.antt | sort | show 8.2 "answers' files, proofs/FUNCTION/Answers.antt"
find crates/*/proofs -name Invariants.antt | sort | show 8.3 "invariants' files"
find crates/*/proofs -maxdepth 1 -name '*.antt' ! -name Lib.antt | sort | while read -r f; do echo "$f: $(wc -l < "$f") lines"; done | show 8.4 "lemmas' files, proofs/NAME.antt"
cat > "$work/answers.py" <<'PY'
import re, sys, glob, collections
answers = []
for f in sorted(glob.glob('crates/*/proofs/**/Answers.antt', recursive=True)):
    if f.count('/') < 4: continue
    lines = open(f).read().split('\n'); i = 0
    while i < len(lines):
        m = re.match(r'^pub ([^\s:]+) : goal\.', lines[i])
        if m:
            j = i + 1; t = []
            while j < len(lines) and lines[j].strip(): t.append(lines[j].strip()); j += 1
            answers.append((f, i + 1, m.group(1), re.sub(r'^.*? = ', '', ' '.join(t), count=1), len(t))); i = j
        i += 1
PY
{ cat "$work/answers.py"; echo 'for a in answers: print(f"{a[0]}:{a[1]}: {a[2]}")'; } | python3 - | show 8.5 'answers'
{ cat "$work/answers.py"; echo 'for a in answers:
    if re.match(r"^(omega|search|grind|simp|cc|refl|arith)( (arith|rules|common_steps)| \(((arith|rules|tests|common_steps|c\.[\w.-]+),? ?)*\))?$", a[3]): print(f"{a[0]}:{a[1]}: {a[2]} = {a[3]}")'; } | python3 - | show 8.6 'answers that are one call of a tactic with no lemma of ours: omega arith, search rules, refl, or these with facts at hand (the check may find them alone)'
{ cat "$work/answers.py"; echo 'for a in answers:
    if re.match(r"^\(?c\.[\w.-]+\)?$", a[3]): print(f"{a[0]}:{a[1]}: {a[2]} = {a[3]}")'; } | python3 - | show 8.7 'answers that are a fact at hand and nothing else'
{ cat "$work/answers.py"; echo 'by = collections.defaultdict(list)
for a in answers: by[re.sub(r"\s+", " ", a[3])].append(a)
for t, g in sorted(by.items(), key=lambda k: -len(k[1])):
    if len(g) >= 4 and len(t) > 30: print(len(g), t[:110], " ".join(sorted({f"{a[0]}:{a[1]}" for a in g}))[:600])'; } | python3 - | show 8.8 'answers of one text, over 30 letters, four times or more (a line a text, its number first)'
{ cat <<'PY'
import re, glob, collections
by = collections.defaultdict(list)
for f in sorted(glob.glob('crates/*/proofs/**/*.antt', recursive=True)):
    t = re.sub(r'(?m)^--.*$', '', open(f).read())
    for m in re.finditer(r'(?m)^(?:pub )?([^\s:=]+) : ((?:.+\n(?: +.+\n)*))', t):
        if 'goal.' in m.group(2): continue
        by[re.sub(r'\s+', ' ', m.group(2)).strip()].append((f, t.count('\n', 0, m.start()) + 1, m.group(1)))
for s, g in sorted(by.items(), key=lambda k: -len(k[1])):
    if len(g) >= 2 and len(s) > 25: print(len(g), s[:120], ' '.join(f'{n} {f}:{l}' for f, l, n in g))
PY
} | python3 - | show 8.9 'lemmas of one statement, to the letter, in two places or more (a line a statement)'
for c in crates/*/proofs; do echo "$c: $(find "$c" -name '*.antt' | wc -l) files, $(find "$c" -name '*.antt' -exec cat {} + | wc -l) lines"; done | show 8.10 'crates with proofs, and their lines'
echo "all: $(find crates/*/proofs -name '*.antt' -exec cat {} + | wc -l) lines of proofs, $(find crates/*/specs -name '*.antt' -exec cat {} + | wc -l) of specs, $(xargs cat < "$work/files" | wc -l) of src" > "$work/all"
xargs cat < "$work/files" | grep -c '// Kept: ' | sed 's/^/lines that begin "\/\/ Kept: ": /' >> "$work/all"

printf '\n## Numbers\n'
cat "$work/table" "$work/all"
