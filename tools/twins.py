"""Print the functions of src/ whose text is the same once names, types and numbers are left out, in groups."""
import collections, pathlib, re, sys
RUST = set("fn let mut if else match for in while loop return break as self Self ref move pub crate impl where use".split())
def shape(text):
    text = re.sub(r'//.*', '', text)
    text = re.sub(r'\b(requires|ensures)\*?( \w+)? \{.*?\}\n', '', text)
    return ' '.join(t if t in RUST or not re.match(r'\w', t) else '_' for t in re.findall(r"\w+|[^\w\s]", text))
groups = collections.defaultdict(list)
for path in sorted(pathlib.Path('crates').glob('*/src/**/*.rt')):
    lines = path.read_text().split('\n')
    for i, line in enumerate(lines):
        m = re.match(r'( *)(?:pub(?:\([a-z]+\))? )?(?:extern "C" )?(?:const )?fn (\w+)', line)
        if not m:
            continue
        j = i
        while j + 1 < len(lines) and lines[j].rstrip() != m[1] + '}' and not lines[j].rstrip().endswith(('{}', ';')):
            j += 1
        body = '\n'.join(lines[i:j + 1])
        if body.rstrip().endswith(';') or '{' not in body:
            continue
        groups[shape(body)].append(f'{path}:{i+1} {m[2]}')
for key, found in groups.items():
    if len(found) > 1 and len(key.split()) >= int(sys.argv[1] if len(sys.argv) > 1 else 0):
        print(len(key.split()), *found, sep='\n  ')
