"""Functions: their heads, their locals, and the lines of their bodies."""
import re

import statements
from c_types import BIG_FRAME, declare, identifier
from rules import refuse, split


class Function:
    """One function on its way to C: what the rules read and write."""

    def __init__(self, name, program):
        self.name, self.program, self.types = name, program, program.types
        self.body = program.functions[name]['body']
        self.lines, self.depth = [], 1
        self.scopes, self.labels = [], 0
        self.known = {}

    def local(self, i):
        return self.program.functions[self.name]['locals'][i]['ty']

    def callee(self, name):
        return self.program.functions[name]

    @staticmethod
    def symbol(name):
        return identifier(name)

    def put(self, text):
        """A line. What is known of locals ends where one of them is assigned, and at all branches and joins."""
        assigned = re.match(r'l\d+', text)
        if assigned:
            self.known = {key: value for key, value in self.known.items()
                          if assigned[0] not in re.findall(r'\bl\d+', ' '.join(key + value))}
        elif not text.startswith('(*'):
            self.known.clear()
        self.lines.append('    ' * self.depth + text)

    # Known of locals in straight code: that one is the sum of another and a constant, (to,) = (x, constant); and that
    # one is a pointer moved on, (x, y) = (to,).

    def is_value(self, text):
        """Whether it is a local, or a field of one, that no pointer reaches."""
        local = re.fullmatch(r'l(\d+)(\.f\d+)*', text)
        return local and self.program.functions[self.name]['locals'][int(local[1])]['home'] == 'ValueLocal'

    def note(self, op, to, x, y):
        if not (self.is_value(to) and self.is_value(x)) or to == x:
            return
        if op == 'Add' and y.startswith('UINT64_C'):
            self.known[(to,)] = (x, y)
        if op == 'Offset' and self.is_value(y) and to != y:
            self.known[(x, y)] = (to,)

    def moved(self, x, y):
        """The pointer x moved on by y bytes: from one that is there already where y is a constant more."""
        base, constant = self.known.get((y,), (None, None))
        if (x, base) in self.known:
            return f'({self.known[x, base][0]} + {constant})'
        return f'((unsigned char *)(void *){x} + (size_t){y})'

    # Blocks and loops: a label is made where an exit asks for it.

    def enter(self):
        self.scopes.append(None)

    def label(self, n):
        if self.scopes[-1 - n] is None:
            self.scopes[-1 - n] = f'exit{self.labels}'
            self.labels += 1
        return self.scopes[-1 - n]

    def leave(self):
        label = self.scopes.pop()
        self.known.clear()
        if label is not None:
            self.lines.append(f'{label}:;')

    # The text.

    def parameters(self):
        """Those that C has, with their types: units are left out."""
        count = self.program.functions[self.name]['params']
        return [(f'l{i}', self.local(i)) for i in range(1, count + 1) if self.local(i) != 'Unit']

    def head(self, storage=None, end=''):
        parameters = ', '.join(declare(self.types.c(ty), name) for name, ty in self.parameters())
        result = 'void' if self.local(0) == 'Unit' else self.types.c(self.local(0))
        storage = storage or self.program.storage(self)
        return declare(f'static {storage}{result}', f'{self.symbol(self.name)}{end}({parameters or "void"})')

    def switch(self):
        """The parameter that a loop would ask about in each turn: an enum of two bare variants, the grid say."""
        for name, ty in self.parameters():
            kind, inside = split(ty)
            if kind == 'Named' and self.types.shape(inside) == ('Variants', [[], []]):
                return name
        return None

    def is_split(self):
        return 'Loop' in self.body and not self.is_big() and self.switch() is not None

    def each_way(self):
        """The function as the choice between its two ways, so that a compiler makes a loop for each."""
        ways = []
        for tag in (0, 1):
            passed = [f'({self.types.c(ty)}){{.tag = {tag}}}' if name == self.switch() else name
                      for name, ty in self.parameters()]
            ways.append(f'{self.symbol(self.name)}_either({", ".join(passed)})')
        lines = ['    return ' + f'{self.switch()}.tag == 0 ? {ways[0]} : {ways[1]};']
        if self.local(0) == 'Unit':
            lines = [f'    if ({self.switch()}.tag == 0)', f'        {ways[0]};', '    else', f'        {ways[1]};']
        return [self.head(), '{'] + lines + ['}', '']

    def frame(self):
        """The bytes of its locals in memory. The others are in registers mostly, but for arrays."""
        return sum(self.types.size(local['ty']) for local in self.program.functions[self.name]['locals']
                   if local['home'] != 'ValueLocal' or split(local['ty'])[0] == 'Array')

    def drop_unread(self):
        """Without what no line reads: the sums of which a pointer made use and goes without them now, and copies, as of
        a result that `?` gives to nobody."""
        idle = r' *(l\d+) = (?:\(l\d+ \+ UINT64_C\(\d+\)\)|l\d+(?:\.\w+)*);'
        idle = [re.fullmatch(idle, line) for line in self.lines]
        read = '\n'.join(re.sub(r'^ *l\d+ = ', '', line) for line in self.lines)
        read = set(re.findall(r'\bl\d+\b', read))
        lines = [line for line, one in zip(self.lines, idle) if not one or one[1] in read]
        if lines != self.lines:
            self.lines = lines
            self.drop_unread()

    def hand_back(self):
        """Without a local whose only reader is `l0 = local`, as a match leaves one: its arms set the result itself."""
        for line in self.lines:
            copy = re.fullmatch(r' *l0 = (l\d+);', line)
            if copy and self.is_value(copy[1]) and self.is_only_set(copy[1], line) and self.returns_at_once(line):
                self.lines = [re.sub(rf'\b{copy[1]}\b', 'l0', one) for one in self.lines if one is not line]
                return self.hand_back()

    def is_only_set(self, local, copy):
        """Whether each line but this copy that names the local, not a parameter, gives it a value."""
        count = self.program.functions[self.name]['params']
        named = [line for line in self.lines if re.search(rf'\b{local}\b', line) and line is not copy]
        return int(local[1:]) > count and all(re.fullmatch(rf' *{local}(\.\w+)* = ((?!\b{local}\b).)*', line)
                                              for line in named)

    def returns_at_once(self, copy):
        """Whether the result, once set, is set on or returned, but for this copy."""
        after = zip(self.lines, self.lines[1:] + [''])
        return all(re.match(r' *(l0(\.\w+)* = |return l0;)', following)
                   for line, following in after if re.match(r' *l0\b', line) and line is not copy)

    def text(self):
        """The whole definition. Locals that no line names are left out."""
        function = self.program.functions[self.name]
        if statements.statement(self, 0) != len(self.body):
            refuse(self.name, 'has more than one body')
        self.drop_unread()
        self.hand_back()
        named = set(re.findall(r'\bl\d+\b', '\n'.join(self.lines)))
        locals_ = [f'    {declare(self.types.c(local["ty"]), f"l{i}")};' for i, local in enumerate(function['locals'])
                   if not 1 <= i <= function['params'] and f'l{i}' in named and local['ty'] != 'Unit']
        unused = [f'    (void)l{i};' for i in range(1, 1 + function['params'])
                  if f'l{i}' not in named and function['locals'][i]['ty'] != 'Unit']
        inside = ['{'] + locals_ + unused + self.lines + ['}', '']
        if not self.is_split():
            return [self.head()] + inside
        return [self.head('INLINE ', '_either')] + inside + self.each_way()

    def is_big(self):
        return self.frame() >= BIG_FRAME
