"""What there is to be priced: each row of the two tables of routes, and each subcommand, as the sources
have them."""

import re

from sources import CRATES

TABLES = {'': CRATES / 'registry_routes/specs/Table.antt', 'npm ': CRATES / 'registry_routes/specs/NpmTable.antt'}
COMMANDS = CRATES / 'registry_cli/src/subcommand.rt'
ROW = re.compile(r'^ +(?:npm_)?row (Get|Put|Post|Delete) \(([^)]*)\) (\w+)', re.M)


def routes():
    """Each row of the tables as `GET /{name}/-/{file}`, with `npm ` in front of npm's own."""
    texts = {kind: file.read_text(encoding='utf-8') for kind, file in TABLES.items()}
    literals = dict(re.findall(r'^(\w+) = literal \(codes "([^"]*)"\)', '\n'.join(texts.values()), re.M))
    found = [f'{kind}{method.upper()} {path_of(pieces, literals)}' for kind, text in texts.items() for method, pieces, _ in ROW.findall(text)]
    rows = sum(len(re.findall(r'^ +(?:npm_)?row ', text, re.M)) for text in texts.values())
    if len(set(found)) != rows or rows < 50:
        raise SystemExit(f'the tables of routes have {rows} rows, and {len(set(found))} of them are understood')
    return found


def path_of(pieces, literals):
    words = [word.strip() for word in pieces.split('∷') if word.strip() != '[]']
    return ''.join('/' + literals.get(word, f'{{{word}}}') for word in words)


def commands():
    """The name of each subcommand."""
    found = dict.fromkeys(re.findall(r'Subcommand \{\s*name: "([^"]+)"', COMMANDS.read_text(encoding='utf-8')))
    if len(found) < 40:
        raise SystemExit(f'{COMMANDS.name} has {len(found)} subcommands that are understood')
    return list(found)
