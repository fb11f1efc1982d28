#!/usr/bin/env python3
"""Lists the places of each point of docs/DESIGN-PASS.md in crates/*/src, one a line, and counts them: tools/forms.py [POINT].

A place is found by its form in the text and not by its name, so the same command counts it before and after a change. What the patterns
cannot tell (whether a place has a reason to stay) stands in the code, in a line that begins with 'stays:'."""
import glob, os, re, sys

TOP = os.path.dirname(os.path.dirname(os.path.abspath(__file__)))
CRATES = [l.split(':')[0].split()[0] for l in open(f'{TOP}/crates.txt') if l.strip() and not l.startswith('#')]


def sources():
    for crate in CRATES:
        for path in sorted(glob.glob(f'{TOP}/crates/{crate}/src/**/*.rt', recursive=True)):
            yield crate, path, open(path).read()


def functions():
    """(crate, file, name, signature with clauses, body) of each function."""
    for crate, path, text in sources():
        lines = text.split('\n')
        i = 0
        while i < len(lines):
            m = re.match(r'( *)(?:pub )?(?:const )?(?:extern "C" )?fn (\w+)', lines[i])
            if not m:
                i += 1
                continue
            indent, name = m.groups()
            start = i
            while not (lines[i] == indent + '{' or (lines[i].endswith(' {') and not re.match(r' *(requires|ensures)', lines[i]))
                       or lines[i].endswith(';')):
                i += 1
            head = '\n'.join(lines[start:i + 1])
            begin = i + 1
            while i < len(lines) and lines[i] != indent + '}' and not lines[begin - 1].endswith(';'):
                i += 1
            yield crate, os.path.basename(path), name, head, '\n'.join(lines[begin:i])
            i += 1


def answer(head):
    m = re.search(r'\) -> (.+?)\s*(?:\{|\n|$)', head.split(' requires')[0].split(' ensures')[0] + '\n')
    return m.group(1).strip() if m else ''


def parameters(head):
    inside = head[head.index('('):].split(') ->')[0].split('\n    requires')[0].split('\n    ensures')[0]
    return re.findall(r'(\w+): (&?(?:mut )?[^,()]+)', inside)


def point_1():
    for crate, path, text in sources():
        for m in re.finditer(r'^pub (?:enum|struct) (\w+)[^{;]*\{(.*?)^\}', text, re.S | re.M):
            if re.search(r'\b(Refused|Nobody|Nowhere)\b', m.group(2)):
                yield crate, f'enum {m.group(1)}: a case for none, or for a refusal'
            if re.search(r'\b(no|right): (u32|bool)|\banswer: Answer', m.group(2)):
                yield crate, f'struct {m.group(1)}: a flag beside values'
            for f in re.findall(r'\b(kind|label): u32', m.group(2)):
                yield crate, f'struct {m.group(1)}: {f} as a number'
        for m in re.finditer(r'^struct (\w+)[^{;]*\{(.*?)^\}', text, re.S | re.M):
            if re.search(r'\b(no|right): (u32|bool)', m.group(2)):
                yield crate, f'struct {m.group(1)}: a flag beside values'
        if crate == 'edge_cases':
            for m in re.finditer(r'^const (\w+): \[\[u64; 5\]; (\d+)\]', text, re.M):
                yield crate, f'table {m.group(1)}: acts as packed numbers'
    for crate, file, name, head, body in functions():
        result = answer(head)
        if result == 'u32' and re.search(r'_check|_number|or_else |ask same|number_of', head.split('ensures', 1)[-1]):
            yield crate, f'fn {name}: the number of a refusal, or 0'
        if re.search(r'find_in|source_in|free_from|unmarked_from|depth_named|FirstNaming|body_beyond', head.split('ensures', 1)[-1]) \
                and result in ('usize', 'u32') and 'ensures' in head:
            yield crate, f'fn {name}: a number for none'
        for p, t in parameters(head):
            if p in ('kind', 'label') and t.strip() == 'u32' and crate != 'edge_cases':
                yield crate, f'fn {name}: {p} as a number'


def point_2():
    for crate, file, name, head, body in functions():
        if re.search(r'(^|_)(few|some|many|plain)($|_)', name) or re.match(r'no_(notes|bodies|words|batch|head|segment)$', name):
            yield crate, f'fn {name}: one of a size'
        if name in ('copy_bytes', 'copy_words', 'same_bytes', 'same_words') and crate == 'edge_cases':
            yield crate, f'fn {name}: one of a type'
        if name in ('free_group', 'commit_group', 'stage_group', 'free_entries', 'commit_entries', 'stage_freed', 'free_staged', 'end_domain',
                    'end_domains', 'four_free', 'sixteen_free', 'end_by_sixteens', 'last_in_use', 'cells_of', 'bodies_of', 'tell', 'number_of'):
            yield crate, f'fn {name}: as another but for a constant, a type or a step'
        if crate == 'domain_store_c':
            yield crate, f'fn {name}: as the function of its name in domain_store'


def point_3():
    for crate, path, text in sources():
        for n, line in enumerate(text.split('\n'), 1):
            if re.match(r"\s*('\w+: )?(while |loop \{)", line):
                yield crate, f'{os.path.basename(path)}:{n}: {line.strip()}'


def point_4():
    for crate, file, name, head, body in functions():
        if re.match(r'(same_|copy_|quarter_of|put_quarter|least|most|remaining|wide|index_of|byte_of|bytes_of|number_at|put_number|four_bytes|eight_bytes|'
                    r'handle_of|number_of|tell|is_digit|any_byte|say|repeats|fill)', name):
            yield crate, f'fn {name}'


FACTS = ('slots ≤ max_slots', 'EndsAt ', 'CellsOnce ', 'rule_ok (', 'Kept ', 'Listed ', 'RoomForMarks ', 'RoomFor ', 'live table', 'first + count ≤ max_cells')


def point_5():
    for crate, file, name, head, body in functions():
        if crate in ('edge_cases', 'domain_store', 'domain_store_c'):
            continue
        clauses = head.split('requires', 1)[-1] if 'requires' in head else ''
        for fact in FACTS:
            if fact in clauses.split('ensures')[0]:
                yield crate, f'fn {name}: requires {fact.strip()}'
        if len(parameters(head)) > 6:
            yield crate, f'fn {name}: {len(parameters(head))} parameters'


def point_6():
    for crate, path, text in sources():
        for m in re.finditer(r'^(?:pub )?struct (\w+)[^{;]*\{(.*?)^\}', text, re.S | re.M):
            if re.search(r'count: usize', m.group(2)) and re.search(r': \[', m.group(2)):
                yield crate, f'struct {m.group(1)}: arrays with a count beside'
    for crate, file, name, head, body in functions():
        names = dict(parameters(head))
        for a, b in (('list', 'n'), ('last', 'before'), ('words', 'changed'), ('table', 'slots'), ('order', 'n')):
            if a in names and b in names and names[a].startswith('&'):
                yield crate, f'fn {name}: {a} and {b}'


def point_7():
    for crate, file, name, head, body in functions():
        if dict(parameters(head)).get('opening') == 'bool':
            yield crate, f'fn {name}: a switch on which questions to put'
        if name in ('free_group', 'commit_group', 'stage_group'):
            yield crate, f'fn {name}: a pass that differs in its step'
        if crate == 'edge_cases' and re.search(r'match op \{', body):
            yield crate, f'fn {name}: a switch on the number of an act'


def point_8():
    for crate in CRATES:
        files = glob.glob(f'{TOP}/crates/{crate}/proofs/*/**/*.antt', recursive=True) + glob.glob(f'{TOP}/crates/{crate}/proofs/*.antt')
        lines = sum(len(open(f).read().split('\n')) for f in files)
        answers = [f for f in files if f.endswith('Answers.antt')]
        yield crate, f'{len(answers)} files of answers, {len(files)} files, {lines} lines'


if __name__ == '__main__':
    for k in range(1, 9):
        places = list(globals()[f'point_{k}']())
        if sys.argv[1:] == [str(k)]:
            for crate, place in places:
                print(f'{crate}: {place}')
        print(f'point {k}: {len(places)} places' if k != 8 else f'point 8: {len(places)} crates')
