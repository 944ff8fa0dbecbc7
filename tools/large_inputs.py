"""Two million bytes of each thing that may come: as publish bodies, as other bodies and heads of
requests, and as arguments; with what docs/CLI.md and docs/HTTP.md say of each."""

import json

from measuring import *

MUCH = 2_000_000
# What one argument may have, and what fits into a head of 16,384 bytes beside its other lines.
ARGUMENT, HEAD = 131_071, 16_000


def much(piece, length=MUCH):
    """A piece as often as makes this many bytes, and whole."""
    return piece * (length // len(piece))


def nested(opening, closing, length=MUCH):
    return much(opening, length * len(opening) // len(opening + closing)) + much(closing, length * len(closing) // len(opening + closing))


def many(value, length=MUCH):
    """Members of an object with keys of five letters and this value."""
    return ','.join(f'"{number:05x}":{value}' for number in range(length // (len(value) + 9)))


def text(length, letter='a'):
    return json.dumps(letter * length)


def body(name='"kit"', version='"2.0.0"', manifest='', members='', data='"YWJj"'):
    """A publish body, whose manifest and which itself have these members more."""
    return (f'{{"name":{name},"versions":{{{version}:{{"name":{name},"version":{version}{manifest}}}}}{members},'
            f'"_attachments":{{"kit.tgz":{{"data":{data}}}}}}}')


def publish_bodies():
    """What is sent as a publish body: what it is, the body, and the refusal, or None where it is accepted."""
    arrays, numeral = nested('[', ']'), much('1')
    yield 'nested arrays', arrays, 'BadBody'
    yield 'nested arrays that never end', much('['), 'BadBody'
    yield 'nested objects that never end', much('{"a":'), 'BadBody'
    yield 'nested arrays in the manifest', body(manifest=f',"x":{arrays}'), 'BadBody'
    yield 'nested arrays beside it', body(members=f',"x":{arrays}'), 'BadBody'
    yield '124 nested arrays in the manifest, 127 levels in all', body(manifest=f',"x":{nested("[", "]", 248)}'), None
    yield '125 nested arrays in the manifest, 128 levels in all', body(manifest=f',"x":{nested("[", "]", 250)}'), 'BadBody'
    yield 'a string as the name', body(name=text(MUCH)), 'BadName'
    yield 'a string as the version', body(version=text(MUCH)), 'BadVersion'
    yield 'a string as a tag', body(members=f',"dist-tags":{{{text(MUCH)}:"2.0.0"}}'), 'BadTag'
    yield 'a string as the status', body(members=f',"access":{text(MUCH)}'), 'BadBody'
    yield 'a string as the integrity', body(manifest=f',"dist":{{"integrity":{text(MUCH)}}}'), 'BadIntegrity'
    yield 'a string as the archive, in no base64', body(data=text(MUCH, '!')), 'BadBody'
    yield 'a string as the archive', body(data=text(MUCH, 'A')), None
    yield 'a string in the manifest', body(manifest=f',"x":{text(MUCH)}'), None
    yield 'a string of escapes in the manifest', body(manifest=f',"x":"{much(chr(92) + "u0041")}"'), None
    yield 'a key in the manifest', body(manifest=f',{text(MUCH)}:0'), None
    yield 'a key beside it', body(members=f',{text(MUCH)}:0'), None
    yield 'a number in the manifest', body(manifest=f',"x":{numeral}'), 'BadBody'
    yield 'a number beside it', body(members=f',"x":{numeral}'), 'BadBody'
    yield 'a fraction in the manifest', body(manifest=f',"x":0.{numeral}'), 'BadBody'
    yield 'a fraction beside it', body(members=f',"x":0.{numeral}'), None
    yield 'a range of `1||` as a tag', body(members=f',"dist-tags":{{"{much("1||")}":"2.0.0"}}'), 'RangeTag'
    yield 'a range of `1||` of a dependency', body(manifest=f',"dependencies":{{"other":"{much("1||")}"}}'), None
    yield 'a string as a dependency', body(manifest=f',"dependencies":{{{text(MUCH)}:"1"}}'), None
    yield 'spaces after the body', body() + much(' '), None
    yield 'many empty arrays in the manifest', body(manifest=f',"x":[{much("[],")}[]]'), None
    yield 'many keys in the manifest', body(manifest=f',{many("0")}'), None


def other_bodies():
    """Requests with another body: what it is, the method, the path, the body, and the answer."""
    tag, access, deprecate = '/-/package/kit/dist-tags/next', '/-/package/kit/access', '/-/package/kit/deprecate'
    yield 'nested arrays as the version of a tag', 'PUT', tag, nested('[', ']'), '400 BadBody'
    yield 'a string as the version of a tag', 'PUT', tag, text(MUCH), '400 BadVersion'
    yield 'a number as the version of a tag', 'PUT', tag, much('1'), '400 BadBody'
    yield 'a string as a status', 'PUT', access, text(MUCH), '400 BadBody'
    yield 'a string as a role', 'PUT', '/-/org/lab/bob', text(MUCH), '400 BadBody'
    yield 'a string as a level', 'PUT', '/-/grant/lab/core/@lab%2fkit', text(MUCH), '400 BadBody'
    yield 'nested arrays as a deprecation', 'POST', deprecate, nested('[', ']'), '400 BadBody'
    yield 'a selector of `1||`', 'POST', deprecate, f'{{"selector":"{much("1||")}","message":"old"}}', '200 1'
    yield 'a selector of `1 `', 'POST', deprecate, f'{{"selector":"{much("1 ")}","message":"old"}}', '200 1'
    yield 'a selector of `1||` that ends in `^1`', 'POST', deprecate, f'{{"selector":"{much("1||")}^1","message":"old"}}', '400 BadSelector'
    yield 'a string as a selector', 'POST', deprecate, f'{{"selector":{text(MUCH)},"message":"old"}}', '400 BadSelector'
    yield 'a string as a message', 'POST', deprecate, f'{{"selector":"1.x","message":{text(MUCH)}}}', '400 BadBody'
    yield 'a key of a deprecation', 'POST', deprecate, f'{{"selector":"1.x","message":"old",{text(MUCH)}:0}}', '200 1'
    yield 'nested arrays where no body is read', 'GET', '/kit/1.0.0', nested('[', ']'), '200'


def lines_of(*lines):
    return '\r\n'.join([*lines, '', '']).encode()


def heads():
    """Requests whose head is long: what it is, the bytes, and the answer."""
    get = 'GET /kit HTTP/1.1'
    yield 'a path', lines_of(f'GET /{much("a")} HTTP/1.1'), '400 BadBody'
    yield 'a path of segments', lines_of(f'GET {much("/a")} HTTP/1.1'), '400 BadBody'
    yield '65 headers', lines_of(get, *[f'x{number}: {much("a", MUCH // 65)}' for number in range(65)]), '400 BadBody'
    yield 'a header', lines_of(get, f'x: {much("a")}'), '400 BadBody'
    yield "a header's name", lines_of(get, f'{much("a")}: x'), '400 BadBody'
    yield 'a token', lines_of(get, f'authorization: Bearer {much("a")}'), '400 BadBody'
    yield 'a length', lines_of(get, f'content-length: {much("1")}'), '400 BadBody'
    yield 'a method', lines_of(f'{much("A")} /kit HTTP/1.1'), '400 BadBody'
    yield 'empty lines', much('\r\n').encode(), '400 BadBody'
    yield '65 headers, short', lines_of(get, *[f'x{number}: a' for number in range(65)]), '400 BadBody'
    yield '64 headers, short', lines_of(get, *[f'x{number}: a' for number in range(64)]), '200'
    yield 'a path of as much as fits', lines_of(f'GET /{much("a", HEAD)} HTTP/1.1'), '400 BadName'
    yield 'a path of as many segments as fit', lines_of(f'GET {much("/a", HEAD)} HTTP/1.1'), '404 NotFound'
    yield 'a range of `1||` as a tag, as much as fits', lines_of(
        f'PUT /-/package/kit/dist-tags/{much("1%7c%7c", HEAD)} HTTP/1.1', 'content-length: 7', '', '"1.0.0"')[:-4], '400 RangeTag'
    yield 'a token of as much as fits', lines_of(get, f'authorization: Bearer {much("a", HEAD)}'), '401 NoCaller'
    yield 'a length of as much as fits', lines_of(get, f'content-length: {much("1", HEAD)}'), '413 TooLarge'


def arguments(length):
    """Command lines of which one argument is long: what it is, the words, and the answer."""
    letters, numeral, ranges = 'a' * length, '1' * length, much('1||', length)
    yield 'the name of a package', ['tags', letters], 'refused: BadName'
    yield 'the name of an organisation', ['members', letters], 'refused: BadName'
    yield 'the name of a package to be withdrawn', ['--as', 'bob', 'withdraw-all', letters], 'refused: BadName'
    yield 'who asks', ['--as', letters, 'members', 'lab'], 'refused: BadName'
    yield 'a token', ['--operator', 'token-add', 'bob', letters], 'refused: BadBody'
    yield 'a version', ['--as', 'bob', 'withdraw', 'kit', numeral], 'refused: BadVersion'
    yield 'a tag', ['--as', 'bob', 'tag-set', 'kit', letters, '1.0.0'], 'refused: BadTag'
    yield 'a range of `1||` as a tag', ['--as', 'bob', 'tag-set', 'kit', ranges, '1.0.0'], 'refused: RangeTag'
    yield 'a selector of `1||`', ['--as', 'bob', 'deprecate', 'kit', ranges, 'old'], '{"count":1,"ok":true}'
    yield 'a selector of `1||` that ends in `^1`', ['--as', 'bob', 'deprecate', 'kit', ranges[:-3] + '^1', 'old'], 'refused: BadSelector'
    yield 'a message', ['--as', 'bob', 'deprecate', 'kit', '1.x', letters], 'refused: BadBody'
    yield 'a status', ['--as', 'bob', 'access', 'kit', letters], 'refused: BadBody'
    yield 'a moment', ['--at', numeral, 'tags', 'kit'], 'usage'
    yield 'a port', ['serve', '--port', numeral], 'usage'
    yield 'a subcommand', [letters], 'usage'
    yield 'a path of a body', ['--as', 'bob', 'publish', letters], 'fault: File'
    yield 'a path of a registry', ['--db', letters, 'tags', 'kit'], 'fault: Database'
