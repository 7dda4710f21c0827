"""Places and operands as C expressions, each with its MIR type."""
import struct
from collections import namedtuple

from c_types import declare, erase, is_pointer, width
from rules import apply, refuse, rule, split

# An expression: its C text, which no operator around it takes apart, and its MIR type.
Typed = namedtuple('Typed', 'text type')


def same(a, b, *where):
    """Refuses two types that differ. Pointers do not: the machine reads no more of them (Mir/Syntax.antt)."""
    if erase(a) != erase(b) and not (is_pointer(a) and is_pointer(b)):
        refuse('types differ:', a, b, *where)


def converted(function, x, ty):
    """The expression where a value of type `ty` is wanted: a pointer changes its C type, all else has it already."""
    same(x.type, ty, function.name)
    if is_pointer(ty) and erase(x.type) != erase(ty):
        return f'({function.types.c(ty)})(void *){x.text}'
    return x.text


def place(function, node):
    """A local, and the steps from it."""
    x = Typed(f'l{node["local"]}', function.local(node['local']))
    for step in node['steps']:
        x = apply('step', step, function, x)
    return x


@rule('step', 'Deref')
def deref(function, x, ty):
    """Through a reference, and through one to an array also to its first element, where a slice of it begins. Or
    through a raw pointer, which is first made one to what is read there: numbers alone, whose size is the same in C as
    in MIR, so that the sums of bytes that MIR has in it are right."""
    if x.type == 'Ptr':
        width(ty, 'behind a raw pointer')
        return Typed(f'(*({declare(function.types.c(ty), "*")})(void *){x.text})', ty)
    name, inside = split(split(x.type)[1][2])
    if name == 'Array' and erase(inside[0]) == erase(ty):
        return Typed(f'(*{x.text}).e[0]', ty)
    same(split(x.type)[1][2], ty, function.name)
    return Typed(f'(*{x.text})', ty)


@rule('step', 'Field')
def field(function, x, i):
    """Of a struct by its position; of a variant, 0 is the tag and the others are in their slots."""
    name, inside = split(x.type)
    text = f'{x.text}.f{i}'
    if name == 'Variant':
        text = f'{x.text}.tag' if i == 0 else f'{x.text}.s{function.types.slots(inside[0])[1][inside[1]][i - 1]}'
    return Typed(text, function.types.field(x.type, i))


@rule('step', 'Variant')
def variant(function, x, n):
    """The same place, seen as one of its variants; nothing is read."""
    return Typed(x.text, {'Variant': [split(x.type)[1], n]})


def operand(function, node):
    return apply('operand', node, function)


@rule('operand', 'Copy')
def copy(function, node):
    return place(function, node)


@rule('operand', 'True')
def true(_, __):
    return Typed('true', 'Bool')


@rule('operand', 'False')
def false(_, __):
    return Typed('false', 'Bool')


@rule('operand', 'Unit')
def unit(_, __):
    """The unit value is nothing in C; no rule writes it."""
    return Typed(None, 'Unit')


@rule('operand', 'Int')
def int_constant(_, node):
    """A number's bits. A constant below zero comes as its bits too."""
    bits, value = node['width'], node['value']
    if bits not in (8, 16, 32, 64) or not 0 <= value < 2 ** bits:
        refuse('constant', node)
    return Typed({32: f'UINT32_C({value})', 64: f'UINT64_C({value})'}.get(bits, str(value)), {'Int': bits})


@rule('operand', 'SizeOf')
def size_of(function, ty):
    """Of a number alone, which is as large in C as in MIR."""
    return int_constant(function, {'width': 64, 'value': width(ty, 'of which the size is asked') // 8})


@rule('operand', 'NumOf')
def number_of(function, node):
    """The number that an instance has for a parameter."""
    bits, number = node
    return int_constant(function, {'width': bits, 'value': number['Const']})


@rule('operand', 'Float')
def float_constant(_, node):
    """By its bits; C99's hexadecimal floats are exact."""
    if node['width'] != 64:
        refuse('float width', node['width'])
    value, = struct.unpack('<d', struct.pack('<Q', node['bits']))
    if value - value != 0:
        refuse('constant that is no number', node)
    return Typed(f'({value.hex()})', {'Float': 64})
