"""Constants that lie in memory, and C's initializers."""
from c_types import length
from places import int_constant, same
from rules import apply, refuse, rule, split


def held(types, ty, node):
    """The C names and the types of what a value consists of: a struct's fields, an array's elements, or an enum's tag
    and the fields of the variant that it tells."""
    name, inside = split(ty)
    if name == 'Array':
        return [f'e[{i}]' for i in range(length(inside[1]))], [inside[0]] * length(inside[1])
    kind, parts = ('Fields', inside[1]) if name == 'Struct' else types.shape(inside)
    if kind == 'Fields':
        return [f'f{i}' for i in range(len(parts))], parts
    tag = split(node[0])
    n = tag[1]['value'] if tag[0] == 'Int' else refuse('tag', node[0])
    return ['tag'] + [f's{slot}' for slot in types.slots(inside)[1][n]], [{'Int': 8}] + parts[n]


def initializer(names, values, wanted):
    """A unit is nothing in C, and what has nothing else is a struct of one byte there."""
    parts = [(name, value) for name, value, ty in zip(names, values, wanted, strict=True) if ty != 'Unit']
    return '{' + (', '.join(f'.{name} = {value}' for name, value in parts) or '0') + '}'


@rule('constant', 'Ints')
def ints(_, ty, node):
    """An array of numbers, by their bits."""
    name, inside = split(ty)
    if name != 'Array' or inside[0] != {'Int': node['width']} or length(inside[1]) != len(node['values']):
        refuse('constant', ty)
    return '{{' + ', '.join(f'UINT64_C({n})' if n >= 2 ** 31 else str(n) for n in node['values']) + '}}'


@rule('constant', 'Parts')
def of_parts(types, ty, node):
    names, wanted = held(types, ty, node)
    values = [apply('constant', part, types, one) for part, one in zip(node, wanted, strict=True)]
    return initializer(names, values, wanted)


@rule('constant', 'Int')
def number(_, ty, node):
    found = int_constant(None, node)
    same(found.type, ty)
    return found.text


@rule('constant', 'Bool')
def truth(_, ty, node):
    same('Bool', ty)
    return 'true' if node else 'false'


@rule('constant', 'Unit')
def nothing(_, __, ___):
    """Nothing in C; no rule writes it."""
