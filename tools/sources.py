"""What the scripts for the pages read: crates.txt, the public calls of a crate with their contracts'
clauses, and the edits that are wrong bodies."""

import pathlib
import re

TOP = pathlib.Path(__file__).resolve().parent.parent
CRATES = TOP / 'crates'
STORIES = CRATES / 'registry_tests_stories' / 'data'
FUNCTION = re.compile(r'( *)(pub(?:\(\w+\))? )?(?:const |unsafe )*fn (\w+)')
BLOCK = re.compile(r'(impl|(?:pub(?:\(\w+\))? )?(?:trait|struct|enum|type|const|static))\b')
GHOST = re.compile(r'    ghost (\w+)(?::.*)? = ')
# These say that an implementation obeys its trait, and nothing of its own.
DUTIES = ('laws', 'total', 'matches_partial_cmp', 'matches_eq', 'respects_eq', 'Value', 'view', 'invariant')


def crates():
    """Each crate of crates.txt, lowest first, with the libraries that it uses."""
    uses = {}
    for line in (TOP / 'crates.txt').read_text(encoding='utf-8').splitlines():
        if line.strip() and not line.startswith('#'):
            name, libraries = line.split(':')
            uses[name.strip()] = libraries.split()
    return uses


def below(uses, crate):
    """All crates of ours that one uses, directly or not."""
    found = set()
    for lower in uses[crate]:
        if lower in uses:
            found |= {lower} | below(uses, lower)
    return found


def program_crates():
    """The crates that make the program, and those of laws about it: not those of tests, nor what tests share."""
    uses = crates()
    program = {'registry_main'} | below(uses, 'registry_main')
    return [name for name in uses if name in program or has_laws(name)]


def files_of(crate):
    """The Rust files of a crate."""
    return sorted((CRATES / crate / 'src').rglob('*.rt'))


def root_of(crate):
    """The root file of a crate."""
    return next(path for path in (CRATES / crate / 'src' / name for name in ('lib.rt', 'main.rt')) if path.exists())


def first_sentence(text):
    """The first sentence of a doc comment, without the brackets of links to names."""
    text = re.sub(r'\[(`[^`]+`)\](?:\([^)]*\))?', r'\1', text.split('\n\n')[0].replace('\n', ' '))
    return re.split(r'(?<=[.!?])\s+(?=[A-Z`])', text)[0].strip()


def doc_of(lines, at, mark='///'):
    """The doc comment above a line."""
    found = []
    for line in reversed(lines[:at]):
        text = line.strip()
        if text.startswith(mark):
            found.append(text[len(mark):].strip())
        elif not text.startswith(('#[', ')]')) or found:
            break
    return '\n'.join(reversed(found))


def head_of(crate):
    """The first sentence that a crate says of itself."""
    lines = root_of(crate).read_text(encoding='utf-8').splitlines()
    size = next((at for at, line in enumerate(lines) if not line.startswith('//!')), len(lines))
    return first_sentence(doc_of(lines, size, '//!'))


class Call:
    """A function, a type or an implementation: where it stands, what is said of it, and the names of
    its clauses, each empty where the clause has no name. The kind of promise is that of a call inside a
    transaction, as `Finds`, or None."""

    def __init__(self, name, owner, public, doc, clauses, place, kind, promise=None):
        self.name, self.owner, self.public, self.doc = name, owner, public, doc
        self.clauses, self.place, self.kind, self.promise = clauses, place, kind, promise

    def full_name(self):
        return f'{self.owner}::{self.name}' if self.owner else self.name


def clauses_below(lines, at, indent):
    """The names of the clauses of the function whose first line this is."""
    found, depth = [], 0
    for line in lines[at:]:
        depth += line.count('{') - line.count('}')
        begun = re.match(rf'{indent}    (ensures|requires)\*? ?(\w*)', line)
        if begun and begun[1] == 'ensures':
            found.append(begun[2])
        if line.startswith((f'{indent}{{', f'{indent}}}')) or line.endswith(';') and depth <= 0:
            break
        if line.endswith(' {') and not begun and not found:
            break
    return found


def promise_below(lines, at):
    """The word of `specs/Inside` with which the only clause of a function begins that has no name."""
    for line in lines[at:]:
        begun = re.match(r' *ensures \{ (?:inside\.)?(Finds|Knows|Makes|MayMake) ', line)
        if begun or re.match(r' *[{}]|.*;$', line):
            return begun[1] if begun else None
    return None


def owner_of(line):
    """The type and the trait of an `impl`, or the name of a trait."""
    line = re.sub(r'^impl<(?:[^<>]|<[^<>]*>)*> ', 'impl ', line)
    named = re.match(r'(?:pub(?:\(\w+\))? )?trait (\w+)', line)
    if named:
        return named[1], None
    form = re.match(r'impl (?:(.+) for )?(?:&)?(?:\w+::)*(\w+)', line)
    return (form[2], form[1]) if form else (None, None)


def calls_of(crate):
    """Each function, type, trait and implementation of a crate, in the order of the files."""
    found = []
    for path in files_of(crate):
        lines = path.read_text(encoding='utf-8').splitlines()
        owner = trait = None
        in_trait = False
        for at, line in enumerate(lines):
            place = (path, at + 1)
            if line.startswith('}'):
                owner = trait = None
                in_trait = False
            elif BLOCK.match(line):
                owner, trait = owner_of(line)
                in_trait = bool(re.match(r'(pub(\(\w+\))? )?trait\b', line))
                named = re.match(r'(?:pub(\(\w+\))? )?(trait|struct|enum|type|const|static) (\w+)', line)
                if named:
                    public = line.startswith('pub ')
                    found.append(Call(named[3], None, public, doc_of(lines, at), [], place, named[2]))
                elif trait and not line.endswith('}'):
                    end = next(to for to in range(at, len(lines)) if lines[to].startswith('}'))
                    ghosts = [ghost[1] for text in lines[at:end] if (ghost := GHOST.match(text))]
                    facts = [name for name in ghosts if name not in DUTIES]
                    found.append(Call(trait, owner, True, doc_of(lines, at), facts, place, 'impl'))
                if line.endswith((';', '{}')):
                    owner = trait = None
                    in_trait = False
            elif form := FUNCTION.match(line):
                inside = owner if form[1] else None
                if form[1] not in ('', '    ') or trait:
                    continue
                public = form[2] == 'pub ' or in_trait
                clauses = clauses_below(lines, at, form[1])
                found.append(Call(form[3], inside, public, doc_of(lines, at), clauses, place, 'fn', promise_below(lines, at)))
    return found


def exports_of(crate):
    """The names that the root of a crate gives away, its own and those of its modules."""
    text = root_of(crate).read_text(encoding='utf-8')
    names = set()
    for group in re.findall(r'^pub use [\w:]+::(?:\{([^}]*)\}|(\w+));', text, re.M):
        names |= set(re.findall(r'\w+', group[0] or group[1]))
    own = re.findall(r'^pub (?:const |unsafe )*(?:fn|struct|enum|trait|type|const|static) (\w+)', text, re.M)
    return names | set(own)


def public_modules(crate):
    """The modules beside `laws` that the root of a crate gives away whole: what is in them isn't seen here."""
    return [name for name in re.findall(r'^pub mod (\w+)', root_of(crate).read_text(encoding='utf-8'), re.M) if name != 'laws']


def has_laws(crate):
    return 'pub mod laws;' in root_of(crate).read_text(encoding='utf-8')


def public_calls(crate):
    """What the root of a crate gives away: types with their methods, and functions. Laws come last."""
    names, laws, calls = exports_of(crate), [], []
    for call in calls_of(crate):
        if not call.public:
            continue
        if call.place[0].stem == 'laws' and has_laws(crate):
            if call.kind == 'fn' and not call.owner:
                call.owner = 'laws'
            laws.append(call)
        elif (call.owner or call.name) in names:
            calls.append(call)
    return calls + laws


def last_seen():
    """How tools/plants last saw each wrong body refused, by CRATE/NAME."""
    lines = (TOP / 'tools/plants_seen.txt').read_text(encoding='utf-8').splitlines()
    return {line.split()[0]: line.split()[-1] for line in lines if line.strip() and not line.startswith('#')}


class Edit:
    """A wrong body: its crate, its name, whether the gate tries it, and what is said of it."""

    def __init__(self, path):
        self.path, self.name, self.crate = path, path.stem, path.parts[-3]
        self.in_gate = path.parts[-2] == 'must-fail'
        self.said = {}
        for line in path.read_text(encoding='utf-8').split('\n'):
            if said := re.match(r'(test|does|refused|input|shown): (.*)', line):
                self.said[said[1]] = said[2].strip()


def edits():
    """Each wrong body, by crate and by name."""
    paths = [*CRATES.glob('*/must-fail/*.edit'), *CRATES.glob('*/wrong/*.edit')]
    return [Edit(path) for path in sorted(paths, key=lambda path: (path.parts[-3], path.stem))]
