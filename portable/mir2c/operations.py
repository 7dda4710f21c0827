"""MIR's operations on values (op2Val and op1Val of logic/Mir/Val.antt). What leaves an operation undefined, a sum that
does not fit or a divisor of zero, is proved not to happen: C's unsigned numbers need not be defined as MIR's there."""
import re

from c_types import width
from places import Typed, same
from rules import apply, refuse, rule

FLOAT = {'Float': 64}


def both(x, y):
    """Two operands of one type."""
    same(x.type, y.type)


def wrapped(symbol, x, y):
    """Worked out without sign at 32 bits or more and cut to the width: the bits of both signs' result where it fits."""
    both(x, y)
    bits = width(x.type)
    if bits >= 32:
        return Typed(f'({x.text} {symbol} {y.text})', x.type)
    return Typed(f'(uint{bits}_t)((uint32_t){x.text} {symbol} {y.text})', x.type)


def signed(x):
    """The number that the bits mean in two's complement, by the prelude's function."""
    bits = width(x.type)
    return f'signed{bits}({x.text})' if bits in (32, 64) else refuse('sign of', bits, 'bits')


def ordered(symbol, sign, x, y):
    both(x, y)
    width(x.type)
    if sign == 'Signed':
        return Typed(f'({signed(x)} {symbol} {signed(y)})', 'Bool')
    return Typed(f'({x.text} {symbol} {y.text})', 'Bool') if sign == 'Unsigned' else refuse('sign', sign)


def divided(symbol, sign, x, y):
    """Towards zero, as C99 divides."""
    both(x, y)
    bits = width(x.type)
    if sign == 'Signed' and bits >= 32:
        return Typed(f'(uint{bits}_t)({signed(x)} {symbol} {signed(y)})', x.type)
    return wrapped(symbol, x, y) if sign == 'Unsigned' else refuse('division', sign, bits)


def bitwise(symbol, x, y):
    """Of numbers or of truth values."""
    both(x, y)
    if x.type == 'Bool':
        return Typed(f'({x.text} {symbol} {y.text})', 'Bool')
    return wrapped(symbol, x, y)


def equality(symbol, x, y):
    both(x, y)
    if x.type != 'Bool':
        width(x.type)
    return Typed(f'({x.text} {symbol} {y.text})', 'Bool')


def floats(symbol, x, y, result):
    """IEEE binary64, to nearest; the prelude refuses machines where C's double is another."""
    both(x, y)
    same(x.type, FLOAT)
    return Typed(f'({x.text} {symbol} {y.text})', result)


def op2(function, node, x, y):
    return apply('op2', node, function, x, y)


@rule('op2', 'Add', 'WrapAdd')
def add(_, x, y, sign):
    return wrapped('+', x, y)


@rule('op2', 'Sub', 'WrapSub')
def sub(_, x, y, sign):
    return wrapped('-', x, y)


@rule('op2', 'Mul', 'WrapMul')
def mul(_, x, y, sign):
    """A product with a constant power of two is a shift: by that gcc knows big-endian bytes when it sees them."""
    factor = re.fullmatch(r'UINT(32|64)_C\((\d+)\)', y.text)
    if factor and int(factor[2]).bit_count() == 1:
        both(x, y)
        return Typed(f'({x.text} << {int(factor[2]).bit_length() - 1})', x.type)
    return wrapped('*', x, y)


@rule('op2', 'Div')
def div(_, x, y, sign):
    return divided('/', sign, x, y)


@rule('op2', 'Rem')
def rem(_, x, y, sign):
    return divided('%', sign, x, y)


@rule('op2', 'And')
def bit_and(_, x, y, __):
    return bitwise('&', x, y)


@rule('op2', 'Or')
def bit_or(_, x, y, __):
    return bitwise('|', x, y)


@rule('op2', 'Xor')
def bit_xor(_, x, y, __):
    return bitwise('^', x, y)


@rule('op2', 'Shl')
def shl(_, x, y, __):
    """By less than the width, which is proved."""
    return wrapped('<<', x, y)


@rule('op2', 'Shr')
def shr(_, x, y, sign):
    """By less than the width, which is proved; zeros come in."""
    return wrapped('>>', x, y) if sign == 'Unsigned' else refuse('shift', sign)


@rule('op2', 'Eq')
def eq(_, x, y, __):
    return equality('==', x, y)


@rule('op2', 'Ne')
def ne(_, x, y, __):
    return equality('!=', x, y)


@rule('op2', 'Lt')
def lt(_, x, y, sign):
    return ordered('<', sign, x, y)


@rule('op2', 'Le')
def le(_, x, y, sign):
    return ordered('<=', sign, x, y)


@rule('op2', 'Offset')
def offset(function, x, y, __):
    """A pointer moved on by bytes: MIR has multiplied by the element's size already. The next byte is reached from the
    pointer to the one before: by that gcc knows neighbours."""
    same(y.type, {'Int': 64})
    return Typed(function.moved(x.text, y.text), 'Ptr')


@rule('op2', 'FloatAdd')
def float_add(_, x, y, __):
    return floats('+', x, y, FLOAT)


@rule('op2', 'FloatSub')
def float_sub(_, x, y, __):
    return floats('-', x, y, FLOAT)


@rule('op2', 'FloatMul')
def float_mul(_, x, y, __):
    return floats('*', x, y, FLOAT)


@rule('op2', 'FloatDiv')
def float_div(_, x, y, __):
    return floats('/', x, y, FLOAT)


@rule('op2', 'FloatLt')
def float_lt(_, x, y, __):
    return floats('<', x, y, 'Bool')


@rule('op2', 'FloatLe')
def float_le(_, x, y, __):
    return floats('<=', x, y, 'Bool')


def op1(function, node, x):
    return apply('op1', node, function, x)


@rule('op1', 'Not')
def bit_not(_, x, __):
    """Of a truth value, or of a number's bits."""
    if x.type == 'Bool':
        return Typed(f'!{x.text}', 'Bool')
    return Typed(f'(uint{width(x.type)}_t)~{x.text}', x.type)


@rule('op1', 'Cast')
def cast(_, x, node):
    """A number to another width: where it grows, the sign that it is read by says what fills the new bits."""
    sign, _, bits = node
    if x.type != 'Bool' and sign == 'Signed' and bits > width(x.type):
        return Typed(f'(uint{bits}_t){signed(x)}', {'Int': bits})
    return Typed(f'(uint{bits}_t){x.text}', {'Int': bits})


@rule('op1', 'CountOnes')
def count_ones(_, x, __):
    width(x.type)
    return Typed(f'count_ones({x.text})', {'Int': 32})


@rule('op1', 'FloatNeg')
def float_neg(_, x, __):
    same(x.type, FLOAT)
    return Typed(f'(-{x.text})', FLOAT)


@rule('op1', 'FloatToBits')
def float_to_bits(_, x, __):
    """The 64 bits of binary64: sign, exponent, digits."""
    same(x.type, FLOAT)
    return Typed(f'float_bits({x.text})', {'Int': 64})


@rule('op1', 'FloatToInt')
def float_to_int(_, x, node):
    """Towards zero, as C does; that the number fits is proved."""
    sign, bits = node
    same(x.type, FLOAT)
    return Typed(f'(uint{bits}_t){x.text}', {'Int': bits}) if sign == 'Unsigned' else refuse('float to', node)


@rule('op1', 'IntToFloat')
def int_to_float(_, x, node):
    """Exact: it is proved that the float has the number."""
    sign, bits = node
    if bits != 64:
        refuse('float width', bits)
    return Typed(f'(double){signed(x) if sign == "Signed" else x.text}', FLOAT)
