"""mir2c: the MIR of the proved library as one C99 file.

    python3 portable/mir2c HEADER FOLDER... > spargolutta.c     the C file
    python3 portable/mir2c --exports HEADER                     the names of the calls

HEADER is include/spargolutta.h: the calls that it declares are the ones exported. FOLDER has the MIR of proved crates:
NAME.json, as tools/prove leaves them in target/mir, or NAME.rlib, as the toolchain has those of its own library.
"""
import sys

import exports
from program import Program


def main(words):
    if words[:1] == ['--exports'] and len(words) == 2:
        with open(words[1], encoding='utf-8') as file:
            print('\n'.join(prototype.name for prototype in exports.prototypes(file.read())))
    elif len(words) >= 2:
        with open(words[0], encoding='utf-8') as file:
            sys.stdout.write(Program(file.read(), words[1:]).text())
    else:
        sys.exit(__doc__)


main(sys.argv[1:])
