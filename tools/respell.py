#!/usr/bin/env python3
"""Respells the repository's own definitions and lemmas: once, after port.py, at the top of the repository.

    python3 tools/respell.py

A word of specs/ and proofs/ in camel case gets snake case, as `neighborsOf` gets `neighbors_of`; types, facts and modules begin with a capital
and keep it. A dash stays where it joins two words of a lemma's name, as in `part-part`. Names of src/ are in snake case already and are not
touched, nor are strings, which have no such words. OTHER has the words whose new spelling would be another name's.
"""
import pathlib
import re

# what would fall together with a lemma, or with a field of a struct of src/
OTHER = {
    'byHand': 'sites_by_hand',  # the lemma by_hand is of it
    'tooFew': 'too_few_groups',  # the lemma too_few
    'cutLinks': 'links_cut',  # the field cut_links
    'u64Max': 'u64_max',
    'oneAndAHalf': 'one_and_a_half',
    # what port.py made of getD
    'get_d_part': 'get_or-part',
    'all_get_d': 'all-get_or',
    'same_None': 'same-none',
}
# lemmas whose first word port.py took for a type
TAKEN = ('All-either', 'Going-on', 'Group-of', 'Load-set', 'Pair-turn', 'Taken-then', 'Told-grown')
WORD = re.compile(r"(?<![A-Za-z0-9_'.«-])[a-z_][A-Za-z0-9_']*(?:-[A-Za-z0-9_']+)*|(?<=\.)[a-z_][A-Za-z0-9_']*(?:-[A-Za-z0-9_']+)*|(?<=«)[a-z_][A-Za-z0-9_']*")
FIRST = re.compile(r"(?<![A-Za-z0-9_'-])(?:" + '|'.join(TAKEN) + r")(?![A-Za-z0-9_'-])")
HUMP = re.compile(r"([a-z0-9])([A-Z])(?=[a-z])")


def part(word):
    if word in OTHER:
        return OTHER[word]
    if word.startswith('getD'):
        word = 'get_or' + word[4:]
    if not word or not (word[0].islower() or word[0] == '_') or not HUMP.search(word):
        return word
    return HUMP.sub(r'\1_\2', word).lower()


def respelled(word):
    return '-'.join(part(p) for p in word.split('-'))


def main():
    files = [p for top in ('crates', 'docs') for s in ('*.antt', '*.rt', '*.edit', '*.md') for p in pathlib.Path(top).rglob(s) if 'out' not in p.parts]
    files.append(pathlib.Path('README.md'))
    known = set()
    for p in files:
        if p.suffix in ('.antt', '.rt'):
            known.update(m.group() for m in WORD.finditer(p.read_text()) if respelled(m.group()) != m.group())
    for p in sorted(files):
        text = p.read_text()
        new = WORD.sub(lambda m: respelled(m.group()) if m.group() in known else m.group(), text)
        if p.suffix == '.antt':
            new = FIRST.sub(lambda m: m.group().lower(), new)
        if new != text:
            p.write_text(new)
            print(p)


if __name__ == '__main__':
    main()
