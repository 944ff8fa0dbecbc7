"""What is so in a registry, as a set of facts: lines that a person can read. The program's own
command line tells them, beside the server."""

import concurrent.futures
import hashlib
import json
import subprocess


class Asked:
    """A registry in a file, asked by the program's command line."""

    def __init__(self, program, db):
        self.program, self.db = str(program), str(db)

    def run(self, *words):
        return subprocess.run([self.program, '--db', self.db, *map(str, words)], capture_output=True, text=True, timeout=60)

    def value(self, *words):
        """What a query prints, as JSON. Nothing where it is refused."""
        ran = self.run(*words)
        return json.loads(ran.stdout) if ran.returncode == 0 else None

    def value_for(self, users, *words):
        """The same for the first of these users to whom it isn't refused."""
        for user in users:
            found = self.value('--as', user, *words)
            if found is not None:
                return found
        raise SystemExit(f'{" ".join(words)} is refused to each of {", ".join(users)}')


class Facts(set):
    """Facts, and the digest of each version's manifest, which no command changes."""

    def __init__(self, facts=(), manifests=None):
        super().__init__(facts)
        self.manifests = dict(manifests or {})

    def add_all(self, other):
        self |= other
        self.manifests |= other.manifests

    def changed_manifests(self, later):
        """The versions whose manifests are others later."""
        return sorted(it for it, digest in self.manifests.items() if later.manifests.get(it, digest) != digest)


def facts_of(asked):
    """All facts of a registry: its users, organisations, teams and packages."""
    with concurrent.futures.ThreadPoolExecutor(4) as pool:
        lists = [pool.submit(asked.value, '--operator', name) for name in ('users', 'organisations', 'packages')]
        users, organisations, packages = [it.result() or {} for it in lists]
        found = Facts(f'user {user}, {count} token{"" if count == 1 else "s"}' for user, count in users.items())
        parts = [pool.submit(organisation_facts, asked, users, org) for org in organisations]
        parts += [pool.submit(package_facts, asked, users, name, row) for name, row in packages.items()]
        for part in parts:
            found.add_all(part.result())
    return found


def organisation_facts(asked, users, org):
    """The members of an organisation, and its teams."""
    members = asked.value_for(users, 'members', org)
    found = Facts(f'{org}: {user}, {role}' for user, role in members.items())
    for team in asked.value_for(members, 'teams', org):
        found |= team_facts(asked, members, org, team)
    return found


def team_facts(asked, members, org, team):
    inside = asked.value_for(members, 'team-members', org, team)
    granted = asked.value_for(members, 'team-packages', org, team)
    return {f'{org}:{team}', *(f'{org}:{team}: {user}' for user in inside),
            *(f'{org}:{team}: {package}, {level}' for package, level in granted.items())}


def package_facts(asked, users, name, row):
    """A package's status, maintainers, tags, and versions, each with its message. A package without
    a version has no packument."""
    found = Facts([f'{name}: {row["status"]}'])
    found |= {f'{name}: maintainer {user}' for user in asked.value_for(users, 'maintainers', name)}
    if 'latest' in row:
        document = asked.value_for(users, 'packument', name)
        found |= {f'{name}: {tag} is {version}' for tag, version in document['dist-tags'].items()}
        found |= {version_fact(name, version, manifest) for version, manifest in document['versions'].items()}
        found.manifests = {f'{name}@{version}': digest_of(manifest) for version, manifest in document['versions'].items()}
    return found


def version_fact(name, version, manifest):
    said = manifest.get('deprecated')
    return f'{name}@{version}' + (f' says {json.dumps(said, ensure_ascii=False)}' if said is not None else '')


def digest_of(manifest):
    """The digest of a manifest but for its message."""
    plain = {key: value for key, value in manifest.items() if key != 'deprecated'}
    return hashlib.sha256(json.dumps(plain, sort_keys=True).encode()).hexdigest()
