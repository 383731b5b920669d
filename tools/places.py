#!/usr/bin/env python3
"""Lists the lines of src/ where an older form may stand, by form. With a commit it reads that commit, else the files.

    python3 tools/places.py [COMMIT]          the counts
    python3 tools/places.py -l [COMMIT]       the lines too

A line that is listed is only a candidate: docs/DESIGN-PASS.md says which are places, and why one stays."""
import collections, re, subprocess, sys

args = sys.argv[1:]
listed = '-l' in args
args = [a for a in args if a != '-l']
commit = args[0] if args else None


def run(*words):
    return subprocess.run(words, check=True, capture_output=True, text=True).stdout


def sources():
    if commit:
        names = run('git', 'ls-tree', '-r', '--name-only', commit, 'crates').split()
    else:
        names = run('git', 'ls-files', '--cached', '--others', '--exclude-standard', 'crates').split()
    for name in sorted(names):
        if '/src/' in name and name.endswith('.rt'):
            yield name, run('git', 'show', f'{commit}:{name}') if commit else open(name).read()


LINES = {
    '1 own enum': r'^(pub )?enum ',
    '1 flag in a struct': r'^\s+(pub(\(crate\))? )?[a-z_]+: bool,',
    '1 value beside an Option': r'^\s+(pub(\(crate\))? )?[a-z_]+: Option<Module',
    '1 number for a variant': r'=> [0-9]+,$|^\s+[0-9]+ =>|^\s+[A-Z][A-Za-z]+ = [0-9]+,$|\) -> \(?u8|Case\(',
    '3 hand-made count': r'[+-]= [0-9]+;|saturating_add\(1\)|[0-9]+ \* [a-z]+\.\.',
    '3 while or loop': r'\b(while|loop)\b.*\{$',
    '4 impl by hand': r'^impl.* (PartialEq|Clone|PartialOrd|Ord|Eq)( for|<)',
    '4 conversion by hand': r'fn (kind_of|kind_number|side_of|side_number|pairing_of|pairing_numbers|word|of|high|low|read_word|operand_offset|number|key_at|at_instance)\b|[/%*] 256',
    '4 comparison by hand': r'fn (same|same_class|is_paired)\b',
    '4 printing by hand': r'fn (digits|put_digits|put_line|put_field|line_length|write_decimal|write_line|kind_name|side_name|write_name|tell_fault)\b',
    '6 buffer with a length': r'\[0u8; [0-9]+\]|\blen: usize',
    '6 index by hand': r'\b[a-z_]+\[[^\]]+\]( =|\.|,| as|\)|;)',
    '7 step by a switch': r'\bfn\(|Box<dyn|&dyn|&mut dyn',
}
found = collections.defaultdict(list)
clauses = collections.defaultdict(list)
parameters = collections.defaultdict(list)
for name, text in sources():
    short = name.replace('crates/', '').replace('/src/', '/')
    for number, line in enumerate(text.split('\n'), 1):
        if line.strip().startswith('//'):
            continue
        for form, pattern in LINES.items():
            if re.search(pattern, line):
                found[form].append(f'{short}:{number}: {line.strip()}')
    for match in re.finditer(r'(requires|ensures)(?: [a-z_]+)? \{(.*?)\}\n', text, re.S):
        place = f'{short}:{text[:match.start()].count(chr(10)) + 1}'
        clauses[re.sub(r'\s+', ' ', match.group(2)).strip()].append(place)
    for match in re.finditer(r'fn ([a-z_0-9]+)(?:<[^(]*>)?\(([^)]*)\)', text):
        place = f'{short}:{text[:match.start()].count(chr(10)) + 1}: {match.group(1)}'
        words = sorted(re.sub(r'\s+', ' ', p.strip()).replace('mut ', '').replace('&', '') for p in match.group(2).split(',') if ':' in p)
        for i, one in enumerate(words):
            for other in words[i + 1:]:
                parameters[f'({one}, {other})'].append(place)
for form, table in (('5 clause in three contracts', clauses), ('5 parameters of three functions', parameters)):
    for key, places in table.items():
        if len(places) >= 3:
            found[form].append(f'{key}: ' + '; '.join(places))
for form in list(LINES) + ['5 clause in three contracts', '5 parameters of three functions']:
    print(f'{len(found[form]):4}  {form}')
    if listed:
        for line in found[form]:
            print('        ' + line)
