#!/usr/bin/env python3
"""usage: ifthen.py REPO   The conditional of std takes the place of the repository's own, which only copied it: `rt ci` refuses another of that name."""
import glob, re, sys
root = sys.argv[1]
W = 'if◌then◌else◌'
def put(text, rt):
    """adds the name to the Prelude's import, or writes one"""
    lead = 'ghost use' if rt else 'use'
    m = re.search(r'(?m)^' + lead + r' Rattle\.std\.specs\.Prelude\.\{([^}]*)\}', text)
    if m:
        if W in re.split(r'[\s,]+', m[1]): return text
        return text[:m.end(1)] + ', ' + W + text[m.end(1):]
    line = f'{lead} Rattle.std.specs.Prelude.{{{W}}}' + (';' if rt else '') + '\n'
    m = re.search(r'(?m)^' + lead + r'\s', text)
    return text[:m.start()] + line + text[m.start():]
for file in sorted(glob.glob(root + '/crates/*/**/*', recursive=True)):
    if '/out/' in file or not file.endswith(('.antt', '.rt')): continue
    text = open(file).read(); rt = file.endswith('.rt')
    if file.endswith('crates/code/specs/Definitions/Lists.antt'):
        new = text.replace('infix 5 if◌then◌else◌\nabbrev pub if◌then◌else◌ : {A : Type 0} → Bool → A → A → A\nif true then a else b = a\nif false then a else b = b\n\n', '')
        if new != text: open(file, 'w').write(put(new, rt) if re.search(r'\bif .* then ', new) else new)
        continue
    lead = 'ghost use' if rt else 'use'
    pat = re.compile(r'(?m)^' + lead + r' Rattle\.code\.specs\.Definitions\.Lists\.\{([^}]*)\}(;?)\n')
    m = pat.search(text)
    if not m or W not in re.split(r'[\s,]+', m[1]): continue
    names = [n for n in re.split(r'\s*,\s*', m[1].strip()) if n != W]
    new = text[:m.start()] + (f'{lead} Rattle.code.specs.Definitions.Lists.{{{", ".join(names)}}}{m[2]}\n' if names else '') + text[m.end():]
    open(file, 'w').write(put(new, rt))
