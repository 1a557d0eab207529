#!/usr/bin/env python3
"""Prints the definitions of specs/ that the contract of `mwt_tool::run` reaches: what a reader has to believe.

They come crate by crate, lowest first, and file by file, each after those of its file that it uses, with the subjects
that need it. With the name of a subject it prints those of that subject alone. Types that the code declares, and
definitions of the toolchain and of its crates, are counted and not listed. It is no part of the gate.
Usage: bench/definitions.py [SUBJECT]
"""
import re
import sys
from collections import defaultdict
from pathlib import Path

TOP = Path(__file__).resolve().parent.parent
ROOT = ('mwt_tool', 'src/top.rt', 'pub fn run')
# The subjects: which definitions to begin with for each, as CRATE.FILE.NAME, and what the subject says.
SUBJECTS = {
    'points': ('what a set of points and its hull are', ['exact_predicates.PointSet.IsPointSet', 'exact_predicates.Hull.IsHull']),
    'triangulation': ('what a triangulation is, and when no flip makes it shorter', [
        'exact_predicates.Triangulation.IsTriangulation', 'exact_predicates.Flip.IsFlipMinimal']),
    'length': ('that the length lies between the two ends', ['mwt_tool.ReportOf.EnclosesLength', 'length_enclosure.Enclosure.hi']),
    'live': ('candidate edges, live edges and the skeleton', [
        'dual_checker.GoodReport.HasCandidates', 'dual_checker.GoodReport.HasLive', 'dual_checker.GoodReport.HasSkeleton']),
    'bound': ('that no triangulation is shorter than the bound, and the premise', [
        'lmt_network.Bounds.NoneIsShorter', 'mwt_tool.ReportOf.Premise']),
    'good': ('the good report, part by part', ['dual_checker.GoodReport.IsGoodReport']),
    'faces': ('when the skeleton decomposes, and the rule on its faces', [
        'mwt_tool.ReportOf.HasDecidedMethod', 'mwt_tool.ReportOf.HasFaceOptimum']),
    'flips': ('the ascent of prices, and the first triangulation, where it does not', ['mwt_tool.ReportOf.IsDescended']),
    'file': ('which point files are accepted, and what one holds', ['tsplib_points.Files.IsFileOf', 'tsplib_points.Refusals.refusal']),
    'text': ('the text of a report, and which texts are none', ['cert_text.Texts.report_text', 'cert_text.Whole.report_of']),
    'words': ('which words ask for which mode', ['mwt_tool.Words.AskFor']),
    'made': ('the point file of a seed, and the summary', ['mwt_tool.Makes.made_text', 'mwt_tool.Summary.summary_text']),
    'outside': ('what is told of reading and writing, and when a fault may be answered', [
        'mwt_base.Causes.Rose', 'mwt_base.Told.GrowsUpTo', 'mwt_base.Told.GrowsByPrefix', 'mwt_base.Told.WriteGrows',
        'mwt_base.Told.TookMore']),
}
REST = ('answers', 'which text and status is meant for words and an input: what joins the other subjects')
START = re.compile(r'(?:abbrev|unfoldable|pub record|pub data|record|data) ')
WORD = re.compile(r"[A-Za-z_][\w]*(?:-[\w]+)*(?:\.[A-Za-z_][\w]*)*")
SYMBOL = '◌'


def crates():
    """The crates of the repository in the order of crates.txt."""
    lines = (TOP / 'crates.txt').read_text().splitlines()
    return [line.split(':')[0].split()[0] for line in lines if line and not line.startswith('#')]


def items(text):
    """Splits `a, b as c, d` into pairs of the name that is used and the name that is meant."""
    for item in filter(None, (part.strip() for part in text.split(','))):
        name, _, other = item.partition(' as ')
        yield (other.strip() or name), name.strip()


def imports(lines):
    """Which name stands for which path, by the `use` lines."""
    found = {}
    for line in lines:
        match = re.match(r'\s*(?:ghost |pub )*use Rattle\.([\w.]+?)(?:\.\{(.*)\})?(?: as (\w+))?;?\s*$', line)
        if not match:
            continue
        path, inner, alias = match.groups()
        if inner is None:
            found[alias or path.split('.')[-1]] = path
        else:
            for used, meant in items(inner):
                found[used] = f'{path}.{meant}'
    return found


class File:
    """One file of specs/: its imports and its definitions with their texts."""

    def __init__(self, crate, path):
        self.crate, self.path = crate, path
        lines = path.read_text().splitlines()
        self.uses = imports(lines)
        self.texts, self.lines = {}, {}
        name = None
        for number, line in enumerate(lines, 1):
            if START.match(line):
                match = re.match(r'(?:abbrev|unfoldable|pub|record|data|\s)*\s*(\S+)', line)
                name = match.group(1)
                self.texts.setdefault(name, [])
                self.lines.setdefault(name, number)
            elif re.match(r'(?:pub mod|use|--|$)', line):
                continue
            if name is not None:
                self.texts[name].append(re.sub(r'--.*|"[^"]*"', '', line))


def spec_files():
    found = {}
    for crate in crates():
        base = TOP / 'crates' / crate / 'specs'
        for path in sorted(base.rglob('*.antt')):
            found[crate + '.specs.' + '.'.join(path.relative_to(base).with_suffix('').parts)] = File(crate, path)
    return found


def is_kit(path):
    return path.split('.')[0] not in crates()


class Reach:
    """What a set of definitions reaches, by the names in their texts."""

    def __init__(self, files):
        self.files = files
        self.below = {}

    def resolve(self, path):
        """The definition that a path names, as (module, name), or a kind of what is not listed."""
        if is_kit(path):
            return ('kit', path)
        module, _, name = path.rpartition('.')
        if '.specs.declared.' in path:
            return ('type', path.split('.TheVariants')[0])
        if module in self.files and name in self.files[module].texts:
            return (module, name)
        return None

    def used_by(self, definition):
        if definition in self.below:
            return self.below[definition]
        module, name = definition
        file = self.files[module]
        found = set()
        text = '\n'.join(file.texts[name])
        for word in WORD.findall(text):
            head = word.split('.')[0]
            if head in file.texts and head != name:
                found.add((module, head))
            elif head in file.uses:
                path = file.uses[head]
                full = path if '.' not in word or path.rpartition('.')[0] in self.files else path + word[len(head):]
                found.add(self.resolve(full) or self.resolve(path))
        for used in list(file.uses) + list(file.texts):
            if SYMBOL in used and used != name and used.strip(SYMBOL) in text:
                found.add(self.resolve(file.uses[used]) if used in file.uses else (module, used))
        self.below[definition] = found - {None}
        return self.below[definition]

    def all_from(self, roots):
        seen, todo = set(), list(roots)
        while todo:
            one = todo.pop()
            if one in seen:
                continue
            seen.add(one)
            if one[0] not in ('kit', 'type'):
                todo.extend(self.used_by(one))
        return seen


def contract_roots(reach):
    """What the clauses of the call name, and what the traits of its source and sink do."""
    crate, name, head = ROOT
    roots = set()
    for path, begin, end in ((TOP / 'crates' / crate / name, head, '\n{'), (TOP / 'crates/mwt_base/src/outside.rt', '', None)):
        text = path.read_text()
        uses = imports(text.splitlines())
        part = text[text.index(begin):]
        part = part[:part.index(end)] if end else part
        part = '\n'.join(line for line in part.splitlines() if 'use ' not in line and not line.strip().startswith('//'))
        for word in WORD.findall(part):
            if word.split('.')[0] in uses:
                roots.add(reach.resolve(uses[word.split('.')[0]]))
    return roots - {None}


def in_order(reach, module, names):
    """The definitions of a file, each after those of the file that it uses."""
    done = []

    def visit(name, path=()):
        if name in done or name in path:
            return
        for other in sorted(reach.used_by((module, name)), key=lambda d: reach.files[d[0]].lines.get(d[1], 0) if d[0] in reach.files else 0):
            if other[0] == module and other[1] in names:
                visit(other[1], path + (name,))
        done.append(name)

    for name in sorted(names, key=lambda n: reach.files[module].lines[n]):
        visit(name)
    return done


def subjects_of(reach):
    found = defaultdict(list)
    for subject, (_, starts) in SUBJECTS.items():
        roots = []
        for start in starts:
            crate, rest = start.split('.', 1)
            module, name = f'{crate}.specs.{rest}'.rsplit('.', 1)
            if module not in reach.files or name not in reach.files[module].texts:
                sys.exit(f'definitions.py: there is no {start}; SUBJECTS names it')
            roots.append((module, name))
        for definition in reach.all_from(roots):
            found[definition].append(subject)
    return lambda definition: found.get(definition) or [REST[0]]


def main():
    files = spec_files()
    reach = Reach(files)
    everything = reach.all_from(contract_roots(reach))
    mine = [d for d in everything if d[0] not in ('kit', 'type')]
    subjects = subjects_of(reach)
    only = sys.argv[1:]
    names = dict([(subject, what) for subject, (what, _) in SUBJECTS.items()] + [REST])
    if only and only[0] not in names:
        sys.exit('definitions.py: the subjects are ' + ', '.join(names))
    if only:
        mine = [d for d in mine if only[0] in subjects(d)]
        print(only[0] + ': ' + names[only[0]])
    by_file = defaultdict(set)
    for module, name in mine:
        by_file[module].add(name)
    for module in files:
        if module not in by_file:
            continue
        file = files[module]
        shown = file.path.relative_to(TOP)
        print(f'\n{shown}')
        for name in in_order(reach, module, by_file[module]):
            print(f'  {name:32} line {file.lines[name]:4}  ' + ' '.join(subjects((module, name))))
    counts = {kind: len([d for d in everything if d[0] == kind]) for kind in ('kit', 'type')}
    print(f'\n{len(mine)} definitions in {len(by_file)} files' + ('' if only else
          f'; beside them {counts["type"]} types that the code declares, and {counts["kit"]} definitions of the toolchain'))
    if not only:
        for subject, what in names.items():
            count = len([d for d in mine if subject in subjects(d)])
            print(f'{count:5}  {subject}: {what}')


if __name__ == '__main__':
    try:
        main()
    except BrokenPipeError:
        sys.stderr.close()
