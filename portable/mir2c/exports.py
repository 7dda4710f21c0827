"""What the header declares, and the exported functions around those of the C boundary's crates."""
import re
from collections import namedtuple

from c_types import identifier, is_slice, width
from rules import refuse, split

# A declaration: the result's C type, the name, and for each parameter its text, C type and name.
Prototype = namedtuple('Prototype', 'result name parameters')
Parameter = namedtuple('Parameter', 'text type name')

BOUNDARY = ('spargolutta', 'spargolutta_books')
NUMBERS = {32: ('uint32_t', 'int32_t'), 64: ('size_t', 'uint64_t', 'int64_t')}


def prototypes(header):
    """The calls that the header declares, in its order; its inline functions are not among them."""
    text = re.sub(r'/\*.*?\*/', '', header, flags=re.S)
    text = re.sub(r'\bSPG_(PURE|CONST|USED|NONNULL|RESTRICT)\b', '', text)
    found = re.findall(r'^\s*(u?int\d+_t|size_t)\s+(spg_\w+)\(([^)]*)\);', text, flags=re.M)
    return [Prototype(result, name, [parameter(part) for part in inside.split(',')]) for result, name, inside in found]


def parameter(text):
    words = ' '.join(text.split()).replace('* ', '*')
    match = re.fullmatch(r'((?:const )?\w+ ?\*?)(\w+)', words)
    return Parameter(words, match[1].strip(), match[2]) if match else refuse('parameter', text)


def symbol_of(program, name):
    """The function of the crates of the C boundary that has the call's name."""
    for crate in BOUNDARY:
        if crate not in program.functions.crates:
            program.functions.read(crate)
    found = [s for s in program.functions.sources if s.split('::')[0] in BOUNDARY and s.split('::')[-1] == name]
    return found[0] if len(found) == 1 else refuse('functions named', name, found)


def arguments(program, function, prototype):
    """The call's arguments for the function: a pointer and a length are one slice. Both sides have to agree."""
    left, out = list(prototype.parameters), []
    for local in function['locals'][1:1 + function['params']]:
        first = left.pop(0) if left else refuse(prototype.name, 'has too few parameters in the header')
        if is_slice(local['ty']):
            count = left.pop(0)
            element = split(local['ty']['Struct'][1][0])[1]
            wanted = 'uint8_t *' if element[1] == 'Mut' else 'const uint8_t *'
            if element[2] != {'Int': 8} or (first.type, count.type) != (wanted, 'size_t'):
                refuse(prototype.name, 'lends', local['ty'], 'where the header has', first.text)
            out.append(f'lent({first.name}, {count.name})')
        else:
            bits = width(local['ty'], prototype.name)
            if first.type not in NUMBERS[bits]:
                refuse(prototype.name, 'takes', local['ty'], 'where the header has', first.text)
            out.append(f'(uint{bits}_t){first.name}')
    return out if not left else refuse(prototype.name, 'has too many parameters in the header')


def definition(program, prototype):
    """The exported function."""
    symbol = symbol_of(program, prototype.name)
    function = program.functions[symbol]
    bits = width(function['locals'][0]['ty'], prototype.name)
    if prototype.result not in NUMBERS[bits]:
        refuse(prototype.name, 'gives', bits, 'bits where the header has', prototype.result)
    call = f'{identifier(symbol)}({", ".join(arguments(program, function, prototype))})'
    if prototype.result.startswith('int'):
        call = f'signed{bits}({call})'
    parameters = ', '.join(one.text for one in prototype.parameters)
    head = f'{prototype.result} {prototype.name}({parameters})'
    return [head, '{', f'    return ({prototype.result}){call};', '}', '']
