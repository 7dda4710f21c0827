"""Wrong translators: each mutant changes one rule of mir2c, and the digest of the C that it makes has to differ.

    python3 portable/mutants.py [CLASS...]      needs target/staticlib, target/mir and cc

Every rule has a mutant; CLASS is type, step, operand, op2, op1, rvalue, constant or statement. A mutant that cannot
change an answer has a line that says why; one whose rule no exported call reaches makes the same C file, and that is
said. A mutant is noticed where the translator refuses, C refuses, the program ends badly or does not end, or a line of
the digest differs.
"""
import os
import shutil
import subprocess
import sys
import tempfile

HERE = os.path.dirname(os.path.abspath(__file__))
ROOT = os.path.normpath(os.path.join(HERE, '..'))
sys.path.insert(0, os.path.join(HERE, 'mir2c'))
from mutant_table import MUTANTS  # noqa: E402
import program  # noqa: E402, F401
from rules import RULES  # noqa: E402

WORK = ('3', '800')
HEADER = os.path.join(ROOT, 'include', 'spargolutta.h')
KIT = os.path.dirname(os.path.dirname(os.path.realpath(shutil.which('rt') or sys.exit('mutants: there is no rt'))))
MIR = [os.path.join(ROOT, 'target', 'mir'), os.path.join(KIT, 'rlibs')]


def run(words, **more):
    return subprocess.run(words, capture_output=True, text=True, **more)


def build(folder, name, library):
    out = os.path.join(folder, name)
    sources = [os.path.join(HERE, 'digest', one) for one in ('zones.c', 'rounds.c', 'digest.c', 'main.c')]
    words = ['cc', '-std=c99', '-O1', '-w', '-I' + os.path.join(ROOT, 'include'), '-I' + os.path.join(HERE, 'digest'),
             os.path.join(folder, 'rows.c'), *sources, library, '-o', out]
    return out if run(words).returncode == 0 else None


def fate(folder, mutant, good, wanted):
    """How a mutant ends."""
    file, old, new = mutant
    tool = os.path.join(folder, 'mir2c')
    shutil.rmtree(tool, ignore_errors=True)
    shutil.copytree(os.path.join(HERE, 'mir2c'), tool)
    path = os.path.join(tool, file)
    with open(path, encoding='utf-8') as text:
        source = text.read()
    if source.count(old) != 1:
        sys.exit(f'mutants: {file} has {source.count(old)} times: {old}')
    with open(path, 'w', encoding='utf-8') as text:
        text.write(source.replace(old, new))
    made = run([sys.executable, '-B', tool, HEADER, *MIR])
    if made.returncode != 0:
        return 'refused by the translator'
    if made.stdout == good:
        return 'the same C file'
    with open(os.path.join(folder, 'mutant.c'), 'w', encoding='utf-8') as text:
        text.write(made.stdout)
    built = build(folder, 'mutant', os.path.join(folder, 'mutant.c'))
    if built is None:
        return 'refused by the C compiler'
    try:
        answered = run([built, *WORK], timeout=10)
    except subprocess.TimeoutExpired:
        return 'does not end'
    if answered.returncode != 0:
        return 'ends badly'
    differ = [a.split()[0] for a, b in zip(wanted.splitlines(), answered.stdout.splitlines()) if a != b]
    return f'{len(differ)} calls differ' if differ else 'SURVIVES'


def main():
    lacking = sorted(set(RULES) - {rule for rule, *_ in MUTANTS})
    if lacking:
        sys.exit(f'mutants: rules without one: {lacking}')
    survived = 0
    with tempfile.TemporaryDirectory() as folder:
        with open(os.path.join(folder, 'rows.c'), 'w', encoding='utf-8') as text:
            text.write(run([sys.executable, os.path.join(HERE, 'digest', 'rows.py'), HEADER]).stdout)
        archive = os.path.join(ROOT, 'target', 'staticlib', 'libspargolutta.a')
        wanted = run([build(folder, 'good', archive), *WORK]).stdout
        good = run([sys.executable, os.path.join(HERE, 'mir2c'), HEADER, *MIR]).stdout
        for rule, what, why_not, *mutant in MUTANTS:
            if sys.argv[1:] and rule[0] not in sys.argv[1:]:
                continue
            end = fate(folder, mutant, good, wanted)
            if end == 'SURVIVES' and why_not:
                end = 'cannot be noticed: ' + why_not
            survived += end == 'SURVIVES'
            print(f'{" ".join(rule)}: {what}: {end}', flush=True)
    print(f'mutants: {len(MUTANTS)}, of which {survived} ought to have been noticed and were not')
    sys.exit(survived != 0)


main()
