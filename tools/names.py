#!/usr/bin/env python3
"""names.py FOLDER: gives drafts with earlier names those that docs/CHANGES.md, "Names", has beside them.

The drafts are in the spelling of the kit of that time; respell_names.py then gives names their present spelling.

Reads the .antt, .rt, .edit, .md, .diff and .patch files below FOLDER, whose crates are its own folders or those of crates/.
Names are replaced in code, and between backquotes in comments and documents.
"""
import os
import re
import sys

EVERYWHERE = dict(pair.split(':') for pair in """
headerStands:headerWellFormed aritiesStand:aritiesWellFormed rowsStand:rowsWellFormed wordsStand:wordsWellFormed
standing:well-formed NodeStands:NodeWellFormed ChildStands:ChildWellFormed StandsIn:WellFormedIn
TermsStand:TermsWellFormed AtomStands:AtomWellFormed AllStand:AllWellFormed fieldStands:fieldWellFormed
fieldsStand:fieldsWellFormed recordStands:recordWellFormed recordsStand:recordsWellFormed
stand-rows:words-rows-well-formed rows-back-stand:rows-words-well-formed more-stand:more-well-formed
append-stands:append-well-formed rows-stand:rows-well-formed row-stands:row-well-formed-parts
stands-row:row-well-formed mapped-stand:map-well-formed entered-stands:entered-well-formed
numbered-stand:numbered-well-formed candidate-stands:candidate-cells atom-stands:atom-well-formed
node-stands:node-well-formed stands-by:well-formed-by stands-kept:well-formed-kept cells-stand:cells-well-formed
fields-stand:fields-well-formed records-stand:records-well-formed record-stands:record-well-formed
card-stands:card-well-formed column-stands:column-well-formed head-stands:head-well-formed
term-stands:term-well-formed header_stands:header_well_formed header-stands:header-well-formed
header-stands-requires:header-well-formed-requires Need-header-stands-requires:Need-header-well-formed-requires
header-stands-spec:header-well-formed-spec
looksOf:costOf askList:askBuffer listA:bufferA bookWords:modelWords bookSeen:modelSeen book-words:model-words
book-candidate:model-candidate BookLaws:ModelLaws plotAfter:instanceAfter askedPlot:askedInstance
plot-after:instance-after plot-tabled:instance-tabled and-true:and-intro map-none:map-identity
""".split())

# a name that a file takes from this module
IMPORTED = {
    ('rowStands', 'instance/specs/Rows'): 'rowWellFormed',
    ('Standing', 'instance/specs/Standing'): 'InstanceWellFormed',
    ('asked', 'calculus/specs/Model'): 'outcomeOf',
    ('asked', 'calculus/specs/Eval'): 'rightCost',
    ('both', 'calculus/proofs/Bools'): 'and-parts',
    ('never', 'calculus/proofs/Bools'): 'false-not-true',
    ('rest', 'calculus/proofs/Lists'): 'drop-step',
    ('count-here', 'calculus/proofs/Counts'): 'countOf-here',
    ('count-other', 'calculus/proofs/Counts'): 'countOf-other',
    ('count-cons', 'calculus/proofs/Counts'): 'countOf-cons',
    ('count-append', 'calculus/proofs/Counts'): 'countOf-append',
    ('count-le', 'calculus/proofs/Counts'): 'countOf-le',
    ('count-rest', 'calculus/proofs/Counts'): 'countOf-drop-step',
    ('met', 'calculus/proofs/Demand'): 'demand-met',
    ('made', 'instance/proofs/Headers'): 'rows-sound',
    ('ran', 'instance/proofs/Run'): 'fills-follow-model',
    ('begin', 'calculus/proofs/Stores'): 'written-begin',
    ('store', 'calculus/proofs/Stores'): 'written-store',
    ('store-part', 'calculus/proofs/Stores'): 'written-part',
    ('anew', 'calculus/proofs/Stores'): 'written-anew',
    ('finish', 'calculus/proofs/Stores'): 'written-finish',
    ('fill-more', 'parse/proofs/Filling'): 'numbers-filled-more',
}

# names of record fields and of variables, in files whose path begins so; the first that fits counts
SOUND = {'stands': 'is-sound', 'plot': 'instance'}
WITHIN = [
    ('instance/proofs/Walk', {'stands': 'well-formed'}),
    ('instance/proofs/scan/', {'stands': 'well-formed'}),
    ('wellformed/', {'Stands': 'WordWellFormed', 'stands': 'header-well-formed', 'stand': 'words-well-formed'}),
    ('card/', {'.stands': '.is-sound', 'Stands': 'CardWellFormed', 'stands': 'well-formed', 'stand': 'arities-well-formed'}),
    ('decode/', {'stands': 'well-formed', 'stand': 'arities-well-formed', 'plot': 'instance'}),
    ('query/', {'stands': 'well-formed'}),
    ('line/proofs/text/write_line/', {'stands': 'placed'}),
    ('line/', {'Standing': 'PlacesWithin', 'looks': 'cost', 'plot': 'instance'}),
    ('domain/', {'valueOf': 'wordValue', 'linkOf': 'wordLink'}),
    ('answer/', {'without': 'to-second', 'with-it': 'to-first', 'without-it': 'second-asks', 'looks': 'cost'} | SOUND),
    ('calculus/specs/ShortCuts', {'looks': 'cost'}),
    ('calculus/proofs/ShortCuts', {'looks': 'cost'}),
    ('rerun/', {'book': 'modelAfter', 'looks': 'cost'} | SOUND),
    ('calls/', {'list': 'buffer', 'stands': 'is-sound'}),
    ('host/', {'book': 'modelAfter', 'list': 'buffer', 'list-kept': 'buffer-kept', 'Plot': 'Instance', 'looks': 'cost_of'} | SOUND),
    ('instance/', SOUND), ('insert/', SOUND), ('substitute/', SOUND), ('null_counts/', SOUND), ('encode/', SOUND),
]

MODULES = {'instance/specs/Standing': 'InstanceWellFormed', 'rerun/proofs/BookLaws': 'ModelLaws'}
USE = re.compile(r'^((?:ghost )?use )Rattle·([a-z_]+)(·specs\.specs|·proofs\.proofs|\.specs|\.proofs)\.([\w.]+)\.\{([^}]*)\}(.*)$')


def module(use):
    """The module of a `use` line, as crate/specs/Name."""
    return '/'.join((use.group(2), use.group(3).split('.')[-1], use.group(4)))


def whole(name):
    """A pattern for a name that stands alone; one that begins with a dot is a field's."""
    before = r'(?<=\s)\.' if name.startswith('.') else r'(?<![\w\-·′])'
    return re.compile(before + re.escape(name.lstrip('.')) + r'(?![\w\-·′])(?!\.[A-Z])')


def rules(path, lines):
    """What to replace in the file of this path, which has these lines."""
    taken = {(name, module(use)) for use in map(USE.match, lines) if use for name in use.group(5).split(', ')}
    place = path.rsplit('.', 1)[0]
    out, done = [], set()
    for (name, home), new in IMPORTED.items():
        if (name, home) in taken or home == place:
            out.append((re.compile(r'(?<!\.)(?<! as )' + whole(name).pattern + r'(?! = [^;]*;$)'), new))
            done.add(name)
    for start, names in WITHIN:
        if path.startswith(start):
            out += [(whole(old), new) for old, new in names.items() if old not in done]
            break
    return out + [(whole(old), new) for old, new in EVERYWHERE.items()]


def replaced(text, names):
    for pattern, new in names:
        text = pattern.sub(new, text)
    return text


def use_line(use, names):
    """A `use` line, with its module and the names that it takes."""
    home = module(use)
    crate = 'exports' if use.group(2) == 'host' else use.group(2)
    own = [rule for rule in names if rule[1] not in IMPORTED.values()]
    taken = []
    for name in use.group(5).split(', '):
        name, renamed, alias = name.partition(' as ')
        taken.append((IMPORTED.get((name, home)) or replaced(name, own)) + renamed + alias)
    return f'{use.group(1)}Rattle·{crate}{use.group(3)}.{MODULES.get(home, use.group(4))}.{{{", ".join(taken)}}}{use.group(6)}'


def line_with(line, names, document):
    use = USE.match(line)
    if use:
        return use_line(use, names)
    if document or line.lstrip().startswith(('--', '//', '#')):
        return re.sub(r'`[^`]*`', lambda quoted: replaced(quoted.group(0), names), line)
    return replaced(line, names)


def crate_path(path):
    return re.sub(r'^(?:[ab]/)?(?:.*crates/)?', '', path)


def diff_with(lines):
    """A diff: each file's part by the rules of that file."""
    starts = [i for i, line in enumerate(lines) if line.startswith('--- ') and lines[i + 1].startswith('+++ ')] + [len(lines)]
    out = lines[:starts[0]]
    for start, end in zip(starts, starts[1:]):
        part = lines[start + 2:end]
        names = rules(crate_path(lines[start + 1][4:].split('\t')[0]), [line[1:] for line in part])
        out += lines[start:start + 2] + [line[:1] + line_with(line[1:], names, False) for line in part]
    return out


def main(folder):
    for place, _, files in os.walk(folder):
        for name in files:
            path = os.path.join(place, name)
            if not name.endswith(('.antt', '.rt', '.edit', '.md', '.diff', '.patch')):
                continue
            with open(path) as file:
                lines = file.read().split('\n')
            if name.endswith(('.diff', '.patch')):
                changed = diff_with(lines)
            else:
                names = rules(crate_path(os.path.relpath(path, folder)), lines)
                changed = [line_with(line, names, name.endswith('.md')) for line in lines]
            if changed != lines:
                with open(path, 'w') as file:
                    file.write('\n'.join(changed))


main(sys.argv[1])
