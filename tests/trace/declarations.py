# The declarations of a source file, Rattle's (.rt) or antt's, in their order.
import re
from collections import namedtuple

# Line: its first, counted from 0. Whole: the name of the declaration that it is a part of, or its own.
Declaration = namedtuple('Declaration', 'name line whole')

ANTT = re.compile(r'( *)(?:(?:pub|abbrev|unfoldable) )*(?:(?:record|data) ([^\s:]+)|(?!let )([^\s:(){}]+) :(?= |$))')
# At the margin, or a method's or a constant's in a block of impl; and a trait's block, by its words.
ITEM = re.compile(r'(?:    )?(?:pub(?:\(crate\))? )?(?:extern "C" )?(fn|struct|enum|const|static|type) (\w+)')
TRAIT = re.compile(r'impl(?:<[^{]*?>)? (\w+(?:<[^{]*>)? for [^{]*\w>?) \{$')
MODULE = re.compile(r'module _ ')
PART = {'struct': re.compile(r' +pub (\w+):'), 'enum': re.compile(r'    ([A-Z]\w*)(?=[,({ ])')}


# Signatures, records, data, fields and constructors. What stands two spaces in under `module _` is no part of another.
def of_antt(lines):
    whole, margin = '', 0
    for i, line in enumerate(lines):
        if line and not line.startswith(' '):
            margin = 2 if MODULE.match(line) else 0
        found = ANTT.match(line)
        if found:
            name = found.group(2) or found.group(3)
            whole = whole if len(found.group(1)) > margin else name
            yield Declaration(name, i, whole)


# Functions and methods, types, constants, traits' blocks, the fields of a struct, and the variants of an enum.
def of_rattle(lines):
    kind = whole = ''
    for i, line in enumerate(lines):
        item = ITEM.match(line) if kind not in PART else None
        trait = TRAIT.match(line)
        part = kind in PART and PART[kind].match(line)
        if item:
            kind, whole = item.groups()
            yield Declaration(whole, i, whole)
        elif trait:
            kind, whole = 'impl', trait.group(1)
            yield Declaration(whole, i, whole)
        elif part:
            yield Declaration(part.group(1), i, whole)
        elif line.startswith('}'):
            kind = ''


# The lines of a file, without comments; and its declarations.
def declarations(path):
    comment = r'\s*//.*' if path.endswith('.rt') else r'(^|\s+)--.*'
    with open(path, encoding='utf-8') as file:
        lines = [re.sub(comment, '', line) for line in file.read().splitlines()]
    return lines, list((of_rattle if path.endswith('.rt') else of_antt)(lines))
