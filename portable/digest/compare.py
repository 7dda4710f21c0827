"""compare.py [--cross]: the digest of the archive and of the C form by each compiler and on each machine that is here.

All texts have to be equal, every call of the archive has to have a row, and every number of the header has to be met. A
line says which compilers and machines were missing; with --cross, where more is asked, that is a failure.
"""
import os
import re
import shutil
import subprocess
import sys
import time

HERE = os.path.dirname(os.path.abspath(__file__))
ROOT = os.path.normpath(os.path.join(HERE, '..', '..'))
OUT = os.path.join(ROOT, 'target', 'portable', 'digest')
ARCHIVE = os.path.join(ROOT, 'target', 'staticlib', 'libspargolutta.a')
C_FILE = os.path.join(ROOT, 'portable', 'spargolutta.c')
# Document 01's four lines.
OCTANT = '1 0 0\n3 0 0\n2 0 1\n18 0 0\n'
SOURCES = [os.path.join(HERE, name) for name in ('zones.c', 'rounds.c', 'digest.c', 'main.c')]
WARNINGS = ['-std=c99', '-Wall', '-Wextra', '-pedantic', '-Werror']
SANITIZERS = ['-O1', '-g', '-fsanitize=address,undefined', '-fno-sanitize-recover=all']
# Machines: the compiler, its flags, and what runs its programs. Three have words of 32 bits or the other byte order.
MACHINES = {
    'armv7': ('arm-linux-gnueabihf-gcc', ['-march=armv7-a', '-mfpu=vfpv3-d16'], 'qemu-arm'),
    'i386': ('i686-linux-gnu-gcc', ['-msse2', '-mfpmath=sse'], 'qemu-i386'),
    'aarch64': ('aarch64-linux-gnu-gcc', [], 'qemu-aarch64'),
    'riscv64': ('riscv64-linux-gnu-gcc', [], 'qemu-riscv64'),
    's390x': ('s390x-linux-gnu-gcc', [], 'qemu-s390x'),
}


def run(words, **more):
    done = subprocess.run(words, capture_output=True, text=True, **more)
    if done.returncode != 0:
        sys.exit(f'digest: {" ".join(words)} failed ({done.returncode})\n{done.stdout[-2000:]}{done.stderr[-4000:]}')
    return done.stdout


def build(name, compiler, library, flags):
    program = os.path.join(OUT, name)
    folders = ['-I' + HERE, '-I' + os.path.join(ROOT, 'include')]
    run([compiler, *WARNINGS, *flags, *folders, os.path.join(OUT, 'rows.c'), *SOURCES, library, '-o', program])
    return [program]


def check_rows(text):
    """Each call of the archive has a row, and the header's numbers were all met."""
    rows = {line.split()[0] for line in text.splitlines() if line.startswith('spg_')}
    exported = set(re.findall(r' T (spg_\w+)', run(['nm', '--defined-only', ARCHIVE])))
    if rows != exported:
        sys.exit(f'digest: calls without a row, or rows without a call: {sorted(rows ^ exported)}')
    with open(os.path.join(ROOT, 'include', 'spargolutta.h'), encoding='utf-8') as file:
        body = re.search(r'enum spg_number \{(.*?)\};', file.read(), re.S)[1]
    wanted = {int(n) for n in re.findall(r'= (\d+)', body)}
    met = {int(n) for n in re.findall(r'(\d+):', text.splitlines()[-1])}
    if not wanted <= met:
        sys.exit(f'digest: numbers that no call gave: {sorted(wanted - met)}')


def forms(cross):
    """What there is to compare: names with the words that start them, and names of what is missing here."""
    found, missing = {}, []
    for name in ('gcc', 'clang'):
        if shutil.which(name):
            found[name] = build(name, name, C_FILE, ['-O3'])
            if cross or name == 'gcc':
                found[name + ' with sanitizers'] = build(name + '-sanitized', name, C_FILE, SANITIZERS)
        else:
            missing.append(name)
    for name, (compiler, flags, starter) in MACHINES.items():
        if shutil.which(compiler) and shutil.which(starter):
            found[name] = [starter] + build(name, compiler, C_FILE, ['-O2', '-static', *flags])
        else:
            missing.append(name)
    wasm = os.path.exists(os.path.join(ROOT, 'target', 'wasm', 'digest.wasm'))
    starters = {'WebAssembly under node': ('node', ['node'], 'digest.mjs'),
                'WebAssembly in Chromium': ('chromium', [sys.executable], 'page.py')}
    for name, (program, words, script) in starters.items():
        if wasm and shutil.which(program):
            found[name] = [*words, os.path.join(ROOT, 'portable', 'wasm', script)]
        else:
            missing.append(name)
    return found, missing


def main(cross):
    os.makedirs(OUT, exist_ok=True)
    with open(os.path.join(OUT, 'rows.c'), 'w', encoding='utf-8') as file:
        file.write(run([sys.executable, os.path.join(HERE, 'rows.py'), os.path.join(ROOT, 'include', 'spargolutta.h')]))
    archive = build('archive', 'cc', ARCHIVE, ['-O2'])
    found, missing = forms(cross)
    works = [('1', '3000')] if cross else [('1', '400')]
    texts = {work: run([*archive, *work]) for work in works + [('2', '3000')]}
    check_rows(texts['2', '3000'])
    for name, words in found.items():
        started = time.monotonic()
        for work in [('2', '3000')] if name in ('gcc', 'clang') else works:
            # The page judges the octant by the ES module first.
            if run([*words, *work]) != (OCTANT if 'Chromium' in name else '') + texts[work]:
                sys.exit(f'digest: {name} differs from the archive; see {" ".join([*words, *work])}')
        if cross:
            print(f'digest: {name} equals the archive ({time.monotonic() - started:.0f} s)', flush=True)
    calls = sum(int(line.split()[1]) for line in texts[works[0]].splitlines() if line.startswith('spg_'))
    print(f'digest: {calls:,} calls, all {texts[works[0]].count("spg_")} of the header: the archive equals '
          + ', '.join(found) + (f'; not here: {", ".join(missing)}' if missing else ''))
    if cross and missing:
        sys.exit('digest: --cross asks for all of them')


main('--cross' in sys.argv[1:])
