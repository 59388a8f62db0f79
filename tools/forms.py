#!/usr/bin/env python3
"""Lists places of the sources that could be written in a shorter form of the language: tools/forms.py [POINT..] [--top TOP] [--count]

1  enums of the shape of Option or Result; functions that answer with a number for a refusal
2  functions alike but for names, types and constants
3  loops that count an index by hand
4  equality, copying, conversion and printing written by hand
5  parameters that travel together, and preconditions that stand in three functions or more
6  buffers with a length beside them, parallel arrays, searches by hand
7  matches and chains of tests in which each arm only calls another step
8  answers and lemmas of proofs
A place is printed as FILE:LINE NAME; --count prints the numbers alone.
"""
import collections, glob, itertools, os, re, sys

top, only, count = '.', set(), False
words = sys.argv[1:]
while words:
    word = words.pop(0)
    if word == '--top': top = words.pop(0)
    elif word == '--count': count = True
    else: only.add(int(word))

sources = {f[len(top) + 1:]: open(f, encoding='utf-8').read() for f in sorted(glob.glob(top + '/crates/*/src/**/*.rt', recursive=True))}


def line_of(text, at):
    return text.count('\n', 0, at) + 1


def closed(text, at, pair='{}'):
    """The position just after the bracket that closes the one at a position."""
    depth = 0
    for i in range(at, len(text)):
        depth += (text[i] == pair[0]) - (text[i] == pair[1])
        if depth == 0: return i + 1
    return len(text)


def plain(text):
    """Comments blanked out; positions stay."""
    return re.sub(r'//[^\n]*', lambda m: ' ' * len(m.group()), text)


class Function:
    def __init__(self, file, name, line, parameters, clauses, body, answer):
        self.file, self.name, self.line, self.parameters, self.clauses, self.body, self.answer = file, name, line, parameters, clauses, body, answer


functions = []
for file, text in sources.items():
    text = plain(text)
    for m in re.finditer(r'\bfn (\w+)\s*(<[^(]*>)?\(', text):
        end = closed(text, m.end() - 1, '()')
        parameters = re.sub(r'\s+', ' ', text[m.end():end - 1]).strip(' ,')
        at, clauses = end, []
        answer = re.match(r'\s*(->\s*([^{;]*?))?\s*(?=requires|ensures|\{|where|;)', text[end:])
        while True:
            c = re.compile(r'\s*(?:->[^{;]*?)?(requires|ensures)\s*\w*\s*\{').match(text, at)
            if not c: break
            stop = closed(text, c.end() - 1)
            clauses.append((c.group(1), re.sub(r'\s+', ' ', text[c.end():stop - 1]).strip()))
            at = stop
        brace = text.find('{', at)
        if brace < 0 or ';' in text[at:brace]: continue
        functions.append(Function(file, m.group(1), line_of(text, m.start()), [p.strip() for p in re.split(r',(?![^<(\[]*[>)\]])', parameters) if p.strip()], clauses,
                                  text[brace:closed(text, brace)], (answer.group(2) or '').strip() if answer else ''))


def enums():
    for file, text in sources.items():
        clean = plain(text)
        for m in re.finditer(r'\benum (\w+)[^{]*\{', clean):
            inside, variants, depth = clean[m.end():closed(clean, m.end() - 1) - 1], [], 0
            for piece in re.split(r',(?![^({]*[)}])', inside):
                piece = piece.strip()
                if piece: variants.append(piece)
            bare = [v for v in variants if re.fullmatch(r'\w+', v)]
            error = [v for v in variants if 'SegmentCacheBuildError' in v]
            if len(variants) == 2 and len(bare) == 1: yield file, line_of(clean, m.start()), m.group(1), 'Option'
            elif len(variants) <= 3 and error and len(variants) > 1: yield file, line_of(clean, m.start()), m.group(1), 'Result'
            elif len(variants) == 3 and len(bare) == 1 and any('(' in v or '{' in v for v in variants) and 'Nothing' in bare: yield file, line_of(clean, m.start()), m.group(1), 'Option'


def normal(body):
    """A body with each name by its order of appearance and each constant alike."""
    seen, out = {}, []
    for token in re.findall(r'[A-Za-z_]\w*|\d\w*|"[^"]*"|\S', body):
        if re.fullmatch(r'(if|else|let|match|while|for|in|return|mut|as|loop|break|true|false|fn|self|usize)', token): out.append(token)
        elif re.match(r'[A-Za-z_]', token): out.append('v%d' % seen.setdefault(token, len(seen)))
        elif re.match(r'[\d"]', token): out.append('#')
        else: out.append(token)
    return ' '.join(out), len(out)


def twins():
    groups = collections.defaultdict(list)
    for f in functions:
        if '_c/' in f.file: continue
        shape, size = normal(f.body)
        if size >= 20: groups[shape].append(f)
    for shape, group in groups.items():
        if len(group) > 1: yield group


def loops():
    for f in functions:
        for m in re.finditer(r'\bwhile\b', f.body):
            brace = f.body.find('{', m.end())
            inside = f.body[brace:closed(f.body, brace)]
            if re.search(r'\b\w+ [+-]= 1\b', inside): yield f, f.line + f.body.count('\n', 0, m.start()) + 1, 'counted'


def by_hand():
    names = r'(same_\w+|equals?_?\w*|is_same\w*|copy_\w+|\w*_copied_over|number|from_\w+|to_\w+|into_\w+|load_?\w*|loaded\w*|words_of\w*|\w+_words|store_\w+|put_\w+|write_\w+|print_\w+|wide|low_byte|flag_\w+|wrapping_\w+|rotate_\w+|least|saturating\w*)'
    for f in functions:
        if '_c/' in f.file: continue
        if re.fullmatch(names, f.name): yield f


def groups():
    """Parameters of three names or more, with the same types, that three functions or more have: the widest first, each function in one group."""
    rows = [(i, frozenset(p for p in f.parameters if ':' in p)) for i, f in enumerate(functions) if '_c/' not in f.file]
    while True:
        where = collections.Counter()
        for i, names in rows:
            for size in range(3, 9):
                for group in itertools.combinations(sorted(names), size): where[group] += 1
        best = max((g for g, n in where.items() if n >= 3), key=lambda g: ((len(g) - 1) * where[g], g), default=None)
        if best is None: return
        with_it = [(i, names) for i, names in rows if set(best) <= names]
        yield best, {i for i, _ in with_it}
        rows = [(i, names - set(best) if set(best) <= names else names) for i, names in rows]


def repeated():
    where = collections.defaultdict(set)
    for i, f in enumerate(functions):
        for kind, text in f.clauses:
            if kind == 'requires':
                for fact in re.split(r' × (?![^(]*\))', text): where[fact.strip('() ')].add(i)
    for fact, w in where.items():
        if len(w) >= 3: yield fact, w


def buffers():
    for f in functions:
        if '_c/' in f.file: continue
        lengths = [p for p in f.parameters if re.match(r'\w*(_len|_count|count|words)\s*: usize', p)]
        slices = [p for p in f.parameters if '&' in p and '[' in p]
        positions = [p for p in f.parameters if re.match(r'(at|from|end|cursor|position)\s*: usize', p)]
        if lengths and slices: yield f, 'a count beside a slice'
        elif positions and any('&mut [u8]' in p for p in f.parameters): yield f, 'a position beside a buffer'
        elif any(re.search(r'middle|bisect', f.body) for _ in [0]): yield f, 'a search'


def steps():
    for f in functions:
        if '_c/' in f.file: continue
        for m in re.finditer(r'\bmatch\b', f.body):
            brace = f.body.find('{', m.end())
            inside = f.body[brace:closed(f.body, brace)]
            calls = re.findall(r'=>\s*\{?\s*[\w:.]+\(', inside)
            if len(calls) >= 3: yield f


def show(point, title, places):
    places = list(places)
    if only and point not in only: return
    print('%d %s: %d' % (point, title, len(places)))
    if not count:
        for p in places: print('   ' + p)


show(1, 'enums of the shape of Option or Result', ('%s:%d %s (%s)' % e for e in enums()))
show(2, 'groups of functions alike', (' '.join('%s:%d %s' % (f.file, f.line, f.name) for f in g) for g in twins()))
show(3, 'loops with a counter', ('%s:%d %s' % (f.file, line, f.name) for f, line, _ in loops()))
show(4, 'by hand', ('%s:%d %s' % (f.file, f.line, f.name) for f in by_hand()))
show(5, 'parameters that travel together', ('%s in %d: %s' % (', '.join(g), len(w), ' '.join(sorted(functions[i].file.split('/')[1] + '::' + functions[i].name for i in w))) for g, w in sorted(groups(), key=lambda x: -len(x[1]))))
show(5, 'preconditions in three functions or more', ('%s in %d' % (fact, len(w)) for fact, w in sorted(repeated(), key=lambda x: -len(x[1]))))
show(6, 'buffers with a count or position, searches', ('%s:%d %s, %s' % (f.file, f.line, f.name, why) for f, why in buffers()))
show(7, 'switches on a step', ('%s:%d %s' % (f.file, f.line, f.name) for f in steps()))
if not only or 8 in only:
    answers = glob.glob(top + '/crates/*/proofs/**/Answers.antt', recursive=True)
    invariants = glob.glob(top + '/crates/*/proofs/**/Invariants.antt', recursive=True)
    lemmas = [f for f in glob.glob(top + '/crates/*/proofs/*.antt') if not f.endswith('/Lib.antt')]
    given = sum(len(re.findall(r'^(?:abbrev )?(?:pub )?(?:[a-z]+-)?\S+ : goal\.\S', open(f, encoding='utf-8').read(), re.M)) for f in answers)
    size = lambda fs: sum(open(f, encoding='utf-8').read().count('\n') for f in fs)
    print('8 answer files %d (%d lines, %d answers), invariant files %d (%d lines), lemma files %d (%d lines)' % (
        len(answers), size(answers), given, len(invariants), size(invariants), len(lemmas), size(lemmas)))
