"""MIR's types in C (logic/Mir/Syntax.antt). Each is declared once, after those that it holds by value."""
import json
import re

from generics import put_in, suffix
from rules import apply, refuse, rule, split

BYTE = {'Int': 8}
# A frame of this many bytes keeps its function out of others: the header promises how much stack a call needs.
BIG_FRAME = 1024


def type_name(inside):
    """The name of a declared type with its arguments."""
    head, arguments = inside
    return ('tuple' if head['name'].startswith('(') else head['name']) + suffix(arguments)


def erase(node):
    """A type without lifetimes and mutability, which the machine does not read (Mir/Syntax.antt)."""
    if isinstance(node, list):
        return [erase(part) for part in node]
    if isinstance(node, dict):
        if 'Ref' in node:
            return {'Ref': ['', '', erase(node['Ref'][2])]}
        if 'Named' in node:
            head, arguments = node['Named']
            return {'Named': [{'name': head['name'], 'lifetimes': []}, erase(arguments)]}
        return {name: erase(part) for name, part in node.items()}
    return node


def identifier(symbol):
    return re.sub(r'[^A-Za-z0-9_]', '_', symbol.replace('::', '__'))


def declare(c_type, name):
    return c_type + name if c_type.endswith('*') else c_type + ' ' + name


def members(c_types):
    """The fields of a struct. C has no unit, which is None here, and no empty struct."""
    return ' '.join(declare(c_type, f'f{i}') + ';' for i, c_type in enumerate(c_types) if c_type) or 'uint8_t empty;'


def length(count):
    """The length of an array: mir.json has it as a literal."""
    name, value = split(count)
    return value if name == 'Lit' else refuse('length', count)


def is_pointer(ty):
    return split(ty)[0] in ('Ptr', 'Ref')


def is_slice(ty):
    """A slice is a struct named &[]: the first element's address, and how many there are."""
    return isinstance(ty, dict) and 'Struct' in ty and ty['Struct'][0] == '&[]'


def width(ty, *of):
    """The width of a number."""
    name, bits = split(ty)
    return bits if name == 'Int' else refuse('not a number:', ty, *of)


class Types:
    """The C types of one program: what is declared, and in which order."""

    def __init__(self):
        self.shapes = {}        # the fields or the variants of a declared type, by its symbol
        self.names = {}         # the C name of a type that is declared
        self.declarations = []
        self.taken = {}

    def learn(self, declared):
        """The types that a function brings along; all functions have to agree."""
        for one in declared:
            shape = erase(one['shape'])
            if self.shapes.setdefault(one['name'], shape) != shape:
                refuse('two shapes for', one['name'])

    def shape(self, inside):
        """('Fields', types) or ('Variants', lists of types) of a declared type at its arguments."""
        head, arguments = inside
        if head['name'] not in self.shapes:
            refuse('no shape of', head['name'])
        shape = self.shapes[head['name']]
        return split(put_in(shape, erase(arguments), []) if arguments else shape)

    def c(self, ty):
        """The C type, declared."""
        return apply('type', ty, self)

    def fields(self, types):
        """The C types of fields. A unit is nothing in C."""
        return [None if ty == 'Unit' else self.c(ty) for ty in types]

    def declared(self, ty, base, make):
        """The name of a type that needs a declaration; make() gives its text up to the name."""
        key = json.dumps(erase(ty))
        if key not in self.names:
            text = make()
            self.names[key] = self.fresh(base)
            self.declarations.append(f'typedef {text} {self.names[key]};')
        return self.names[key]

    def fresh(self, base):
        count = self.taken[base] = self.taken.get(base, -1) + 1
        return f'{base}_{count}' if count else base

    def field(self, ty, i):
        """The type of field i; a variant's field 0 is its tag."""
        name, inside = split(ty)
        if name == 'Struct':
            return inside[1][i]
        if name == 'Variant':
            return BYTE if i == 0 else self.shape(inside[0])[1][inside[1]][i - 1]
        if name == 'Named' and self.shape(inside)[0] == 'Fields':
            return self.shape(inside)[1][i]
        return refuse('field of', name)

    def slots(self, inside):
        """The fields of an enum's C struct behind the tag, and for each variant the slot of each of its fields.
        Variants share slots of one type: a compiler then keeps an enum in registers, which it does not of a union."""
        slots, places = [], []
        for fields in self.shape(inside)[1]:
            free, own = list(range(len(slots))), []
            for ty in fields:
                slot = next((i for i in free if slots[i] == ty), None)
                if slot is None and ty != 'Unit':
                    slot = len(slots)
                    slots.append(ty)
                elif slot is not None:
                    free.remove(slot)
                own.append(slot)
            places.append(own)
        return slots, places

    def size(self, ty):
        """Its bytes on a 64-bit machine, up to padding: which frames and results are big hangs on it, and no more."""
        name, inside = split(ty)
        if name == 'Array':
            return self.size(inside[0]) * length(inside[1])
        if name == 'Struct':
            return sum(map(self.size, inside[1]))
        if name == 'Named':
            kind, parts = self.shape(inside)
            lists = [parts] if kind == 'Fields' else parts
            return max((sum(map(self.size, fields)) for fields in lists), default=0) + 8
        return 0 if ty == 'Unit' else 8


# ---- each type

@rule('type', 'Bool')
def bool_type(_, __):
    return 'bool'


@rule('type', 'Int')
def int_type(_, bits):
    """A number of either sign is an unsigned C number of its width: MIR's operations say the sign, not its types."""
    return f'uint{bits}_t' if bits in (8, 16, 32, 64) else refuse('width', bits)


@rule('type', 'Float')
def float_type(_, bits):
    return 'double' if bits == 64 else refuse('float width', bits)


@rule('type', 'Ptr')
def raw_pointer_type(_, __):
    return 'unsigned char *'


@rule('type', 'Ref')
def reference_type(types, inside):
    return types.c(inside[2]) + ' *'


@rule('type', 'Array')
def array_type(types, inside):
    """In a struct, so that it is assigned and returned as a whole."""
    element, count = types.c(inside[0]), length(inside[1])
    base = 'array_' + identifier(element).strip('_') + f'_{count}'
    return types.declared({'Array': inside}, base, lambda: f'struct {{ {declare(element, f"e[{count}]")}; }}')


@rule('type', 'Struct')
def struct_type(types, inside):
    """A tuple, or a slice. Fields are f0, f1 and so on."""
    symbol, fields = inside
    c_fields = types.fields(fields)
    base = 'slice_' + identifier(c_fields[0]).strip('_') if symbol == '&[]' else 'type_' + identifier(symbol)
    return types.declared({'Struct': inside}, base, lambda: f'struct {{ {members(c_fields)} }}')


@rule('type', 'Named')
def named_type(types, inside):
    """A declared struct; or an enum, its tag and then the slots for its variants' fields."""
    kind, parts = types.shape(inside)

    def text():
        if kind == 'Fields':
            return f'struct {{ {members(types.fields(parts))} }}'
        if kind != 'Variants':
            refuse('shape', kind)
        slots = [types.c(ty) for ty in types.slots(inside)[0]]
        fields = ['uint8_t tag'] + [declare(slot, f's{i}') for i, slot in enumerate(slots)]
        return f'struct {{ {"; ".join(fields)}; }}'
    return types.declared({'Named': inside}, 'type_' + identifier(type_name(inside)), text)
