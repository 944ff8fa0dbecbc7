"""What a client may send at most: JSON of 4 MiB in each shape, selectors, ranges and dependencies, and
heads of 16 KiB."""

import functools
import json
import random

from large_inputs import much
from measuring import Publication, request_of

BODY, HEAD = 4_194_304, 16_384
# What is left of a body beside the members that it needs.
ROOM = BODY - 1_000
MADE_UP = 'npm_' + 36 * 'q'


def random_keys(room, value='0'):
    """An object of short keys in random order: of 380,000 in 4 MiB."""
    count = room // (len(value) + 9)
    keys = [f'{number:05x}' for number in range(count)]
    random.Random(1).shuffle(keys)
    return '{' + ','.join(f'"{key}":{value}' for key in keys) + '}'


def nested(room):
    """An array of arrays, each 120 deep: with what is around them 127 at most."""
    deep = 120 * '[' + 120 * ']'
    return '[' + ','.join([deep] * (room // 241)) + ']'


# Each shape is a JSON value of so many bytes.
SHAPES = {
    'keys': random_keys,
    'equal-keys': lambda room: '{' + ','.join(['"a":0'] * (room // 6)) + '}',
    'numbers': lambda room: '[' + ','.join(['1'] * (room // 2 - 1)) + ']',
    'floats': lambda room: '[' + ','.join(['1.1e9'] * (room // 6 - 1)) + ']',
    'strings': lambda room: '[' + ','.join(['""'] * (room // 3 - 1)) + ']',
    'objects': lambda room: '[' + ','.join(['{"a":0}'] * (room // 8 - 1)) + ']',
    'nested': nested,
    'string': lambda room: '"' + 'a' * (room - 2) + '"',
    'escapes': lambda room: '"' + much('\\u0041', room - 2) + '"',
}


@functools.lru_cache(maxsize=None)
def shaped(shape, room=ROOM):
    return SHAPES[shape](room)


def manifest_of(name, version, members=''):
    return f'{{"name":"{name}","version":"{version}"{members}}}'


def publication(name, version, members='', beside='', data='YWJj'):
    """A body that publishes a version whose manifest and which itself have these members more."""
    return (f'{{"name":"{name}","versions":{{"{version}":{manifest_of(name, version, members)}}}{beside},'
            f'"_attachments":{{"a.tgz":{{"data":"{data}"}}}}}}').encode()


def publication_of_shape(shape, name, version, room=ROOM):
    return publication(name, version, f',"x":{shaped(shape, room)}')


def publication_of_archive(name, version):
    """The yardstick: 3.7 MB, nearly all of it the archive, in base64."""
    return Publication(name, version, 2_770_000).body


def dependencies(count):
    return ',"dependencies":{' + ','.join(f'"a{number:06}":"1"' for number in range(count)) + '}'


def needing(name, version, need, text):
    """A body that publishes a version which needs another package by a range."""
    return publication(name, version, f',"dependencies":{{"{need}":"{text}"}}')


def object_with(shape, **members):
    """An object with these texts and 4 MiB beside them, as npm's routes take it."""
    known = ''.join(f'{json.dumps(key)}:{json.dumps(value)},' for key, value in members.items())
    return f'{{{known}"x":{shaped(shape)}}}'.encode()


# What a text of ranges repeats that selects nothing, and one that selects each version.
PARTS = {'nines': '9||', 'above': '>9.9.9||', 'prereleases': '9.0.0-a||', 'between': '>=9.1.0 <9.2.0||', 'any': '1||'}


def ranges(part, room):
    """Ranges of so many bytes, of which none selects a version 1.x."""
    return much(PARTS[part], room - 1) + PARTS[part][:-2]


def selection(part, message='old', room=ROOM):
    """A deprecation by a selector of 4 MB."""
    return json.dumps({'selector': ranges(part, room), 'message': message}).encode()


# ---- heads

def long_heads():
    """Requests with a head of 16 KiB, each by its name."""
    room = HEAD - 200
    get = lambda target, *lines: ('\r\n'.join([f'GET {target} HTTP/1.1', *lines]) + '\r\n\r\n').encode()
    yield 'segments', get(much('/a', room)), (404,)
    yield 'name', get('/' + much('a', room)), (400,)
    yield 'escapes', get('/' + much('%61', room)), (400,)
    yield 'version', get('/kit/1.0.0-' + much('1.', room) + '1'), (400, 404)
    yield 'token', get('/kit', 'authorization: Bearer ' + much('a', room)), (401,)
    yield 'fields', get('/kit', *[f'x{number}: {much("a", room // 64)}' for number in range(62)]), (200,)
    yield 'accept', get('/kit', 'accept: ' + much('a/b;q=0.1,', room) + 'a/b'), (200,)
    yield 'etags', get('/kit', 'if-none-match: ' + much('"a",', room) + '"a"'), (200,)
    tag = ('PUT /-/package/kit/dist-tags/' + much('1%7c%7c', room) + '1')
    yield 'tag', request_of(*tag.split(' '), b'"1.0.0"', MADE_UP), (400, 401)
