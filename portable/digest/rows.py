"""rows.py HEADER > rows.c: one row of the digest for each call that the header declares.

An argument is the member of `struct inputs` with the parameter's name. A pointer that is not const is a buffer that the
call writes to: it is filled before and hashed after, and its length, which other calls take without the buffer, is the
member X_room, or `room` where there is none of that name.
"""
import os
import re
import sys

HERE = os.path.dirname(os.path.abspath(__file__))
sys.path.insert(0, os.path.join(HERE, '..', 'mir2c'))
import exports  # noqa: E402

QUERY = {'x', 'y', 'z'}


def members():
    """The names in `struct inputs`."""
    with open(os.path.join(HERE, 'inputs.h'), encoding='utf-8') as file:
        return set(re.findall(r'\w+', re.search(r'struct inputs \{(.*?)\n\};', file.read(), re.S)[1]))


def room(name):
    """The length of the buffer that is lent for a parameter."""
    return f'in->{name}_room' if name + '_room' in members() else 'in->room'


def argument(prototype, parameter, read):
    """The C text of one argument; `read` has the names of what the call reads through a pointer."""
    if parameter.type == 'uint8_t *':
        return f'lend({room(parameter.name)})'
    base = parameter.name.removesuffix('_len')
    if parameter.type == 'size_t' and base != parameter.name and base not in read:
        return room(base)
    if parameter.name not in members():
        sys.exit(f'rows.py: {prototype.name} takes {parameter.name}, which the digest does not make: '
                 'give struct inputs (portable/digest/inputs.h) a member of that name')
    return f'in->{parameter.name}'


def row(prototype):
    read = {one.name for one in prototype.parameters if one.type == 'const uint8_t *'}
    written = [one.name for one in prototype.parameters if one.type == 'uint8_t *']
    if len(written) > 1:
        sys.exit(f'rows.py: {prototype.name} writes to {len(written)} buffers; the digest lends one')
    arguments = ', '.join(argument(prototype, one, read) for one in prototype.parameters)
    lines = [f'static void row_{prototype.name}(struct row *row, const struct inputs *in)', '{',
             f'    note(row, (uint64_t){prototype.name}({arguments}));']
    lines += [f'    note_lent(row, {room(name)});' for name in written]
    return lines + ['}', '']


def main(header):
    with open(header, encoding='utf-8') as file:
        prototypes = exports.prototypes(file.read())
    print('/* Made by rows.py from the header. */\n#include "inputs.h"\n')
    for prototype in prototypes:
        print('\n'.join(row(prototype)))
    print('struct row rows[] = {')
    for prototype in prototypes:
        names = {one.name for one in prototype.parameters}
        lent = any('*' in one.type for one in prototype.parameters)
        print(f'    {{"{prototype.name}", row_{prototype.name}, {int(QUERY <= names or not lent)}, 0, 0}},')
    print('};\n\nconst size_t rows_count = sizeof rows / sizeof *rows;')


main(sys.argv[1])
