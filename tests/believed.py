"""The definitions that a reader must believe: tests/believed.py [list]

What the C contracts cite and what the theorems speak of, with all that these cite in turn, file by file. docs/ARCHITECTURE.md lists them by crate; this holds that list
against the files themselves. With `list` it prints the list, to be put there."""
import os, re, sys

ROOT = os.path.dirname(os.path.dirname(os.path.abspath(__file__)))
CRATES = os.path.join(ROOT, 'crates')
PAGE = os.path.join(ROOT, 'docs', 'ARCHITECTURE.md')

# whose contracts users reach from other languages
CONTRACTS = ['gevrolen_c']
# where the theorems are stated
STATEMENTS = ['placement/Places', 'site_operations/ReadRule', 'timestamp_order/Parting', 'protocol/Earliest', 'protocol/Waiting', 'protocol/Cycles', 'protocol/Collect',
              'protocol/Calls', 'protocol/Agreement', 'origins/Statements', 'network_layout/Played', 'network_origin/Played', 'history_file/Statements',
              'script_notation/Scripts', 'c_parting/Fields']
USE = re.compile(r'use Rattle\.(\w+)\.specs\.([\w.]+?)(?:\.TheVariants)?\.\{')
# the library's own, which stand in no folder of this repository
LIBRARY = ('std', 'core')


def place(crate, name):
    return os.path.join(CRATES, crate, 'specs', name + '.antt')


def cited(path):
    """The files of definitions that a file names; what the code declares, structs and enums, stands in src/."""
    with open(path, encoding='utf-8') as text:
        found = {match.groups() for match in map(USE.search, text) if match}
    return {place(crate, name) for crate, name in found if crate not in LIBRARY and not name.startswith('declared.')}


def reached():
    waiting = {place(*name.split('/')) for name in STATEMENTS}
    for crate in CONTRACTS:
        waiting |= cited(os.path.join(CRATES, crate, 'src', 'lib.rt'))
    seen = set()
    while waiting:
        path = waiting.pop()
        seen.add(path)
        waiting |= cited(path) - seen
    return seen


def by_crate(paths):
    """Lines of a table: a crate and its files."""
    crates = {}
    for path in sorted(paths):
        crate, _, name = os.path.relpath(path, CRATES).split(os.sep)
        crates.setdefault(crate, []).append(name[:-len('.antt')])
    return ['| %s | %s |' % (crate, ', '.join(names)) for crate, names in crates.items()]


def counted(paths):
    lines = 0
    for path in paths:
        with open(path, encoding='utf-8') as text:
            lines += len(text.readlines())
    return lines


def main():
    paths = reached()
    rows = by_crate(paths)
    every = [os.path.join(CRATES, crate, 'specs', name) for crate in os.listdir(CRATES) if os.path.isdir(os.path.join(CRATES, crate, 'specs'))
             for name in os.listdir(os.path.join(CRATES, crate, 'specs')) if name.endswith('.antt')]
    head = '%d of %d files, %s of %s lines' % (len(paths), len(every), format(counted(paths), ','), format(counted(every), ','))
    if sys.argv[1:] == ['list']:
        print('\n'.join([head] + rows))
        return
    with open(PAGE, encoding='utf-8') as text:
        page = text.read()
    missing = [row for row in [head] + rows if row not in page]
    if missing:
        sys.exit('docs/ARCHITECTURE.md lacks:\n' + '\n'.join(missing))
    said = page.split('| crate | files to be believed |')[1].split('\n\n')[0].strip().split('\n')[1:]
    if said != rows:
        sys.exit('docs/ARCHITECTURE.md has more files than are reached:\n' + '\n'.join(sorted(set(said) - set(rows))))
    print('definitions to be believed: %s' % head)


main()
