"""The C form beside the archive, by instructions that callgrind counts in one call: a table, and the promises held to.

    python3 portable/speed.py        needs target/staticlib, gcc or clang, and valgrind
"""
import os
import re
import shutil
import subprocess
import sys

ROOT = os.path.join(os.path.dirname(os.path.abspath(__file__)), '..')
# Works: call, sides, grid; and at most how many times the archive's instructions (gcc, clang).
FEED, CALL = (1.10, 1.05), (1.30, 1.10)
WORKS = [('feed', sides, grid, FEED) for grid in ('coarse', 'fine') for sides in (1071, 4096)]
WORKS += [('judge', sides, grid, CALL) for grid in ('coarse', 'fine') for sides in (64, 1071, 4096)]
WORKS += [('import', 70, 'coarse', CALL), ('import', 1071, 'coarse', CALL)]
WORKS += [(work, 1071, grid, CALL) for work in ('sheet', 'choose', 'compare', 'write', 'book')
          for grid in ('coarse', 'fine')]
WORKS += [('basin', 512, 'coarse', CALL), ('basin', 512, 'fine', CALL), ('point', 3, 'coarse', CALL)]
COUNTED = {'feed': 'spg_feed_number', 'sheet': 'spg_sheet_zone', 'point': 'spg_point_x', 'book': 'spg_book_inside'}


def build(folder, name, compiler, library):
    program = os.path.join(folder, 'speed-' + name)
    source = os.path.join(ROOT, 'portable', 'speed.c')
    include = '-I' + os.path.join(ROOT, 'include')
    subprocess.run([compiler, '-std=c99', '-O3', include, source, library, '-lm', '-o', program], check=True)
    return program


def count(program, work, sides, grid):
    """Instructions of the one call, and its answer."""
    toggled = COUNTED.get(work, f'spg_{work}_number')
    words = ['valgrind', '--tool=callgrind', '--toggle-collect=' + toggled, '--callgrind-out-file=/dev/null']
    words += [program, work, str(sides), grid]
    out = subprocess.run(words, capture_output=True, text=True, check=True)
    return int(re.search(r'Collected : (\d+)', out.stderr)[1]), out.stdout


def main():
    if shutil.which('valgrind') is None:
        sys.exit('The C form beside the archive: not counted, as there is no valgrind.')
    folder = os.path.join(ROOT, 'target', 'portable')
    os.makedirs(folder, exist_ok=True)
    compilers = [name for name in ('gcc', 'clang') if shutil.which(name)]
    archive = build(folder, 'archive', 'cc', os.path.join(ROOT, 'target', 'staticlib', 'libspargolutta.a'))
    forms = [build(folder, name, name, os.path.join(ROOT, 'portable', 'spargolutta.c')) for name in compilers]
    title = '\nThe C form beside the archive, thousands of instructions'
    print(title.ljust(60), *(name.rjust(16) for name in compilers))
    over = 0
    for work, sides, grid, most in WORKS:
        ours, answer = count(archive, work, sides, grid)
        cells = []
        for name, program in zip(compilers, forms):
            theirs, same = count(program, work, sides, grid)
            if same != answer:
                sys.exit(f'{work} {sides} {grid}: {name} answers {same.strip()}, the archive {answer.strip()}')
            high = theirs / ours > most[name == 'clang']
            over += high
            cells.append(f'{theirs / 1e3:9.1f} {theirs / ours:5.2f}{"!" if high else " "}')
        print(f'{work}, {sides} sides, {grid}'.ljust(40), f'{ours / 1e3:18.1f}', *cells, flush=True)
    print('Over the promise: none.' if over == 0 else f'Over the promise (!): {over}.')


main()
