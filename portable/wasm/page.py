"""page.py SEED ROUNDS: the octant and the digest in headless Chromium, with nothing fetched; prints what is shown.

The page holds both modules and the two scripts, so that it opens from a file. 2 as status where there is no Chromium.
"""
import base64
import os
import re
import shutil
import subprocess
import sys
import tempfile

HERE = os.path.dirname(os.path.abspath(__file__))
ROOT = os.path.join(HERE, '..', '..')
PAGE = '''<!doctype html><meta charset=utf-8><title>Spargolutta</title><pre id=shown>nothing</pre><script type=module>
import {{ load }} from "data:text/javascript;base64,{module}";
import {{ digest }} from "data:text/javascript;base64,{digest}";
const bytes = (text) => Uint8Array.from(atob(text), (c) => c.charCodeAt(0));
const show = document.getElementById('shown');
try {{
  const library = await WebAssembly.compile(bytes("{library}"));
  const sheet = (await load(library)).open(bytes("{sheet}"));
  const octant = sheet.feed([[3, 2, 1], [1, 1, 0], [1, 1, -1], [-1, -1, -1]]);
  const lines = octant.map((a) => `${{a.number}} ${{a.place}} ${{a.count}}\\n`).join('');
  show.textContent = lines + await digest(library, await WebAssembly.compile(bytes("{above}")), {seed}, {rounds});
}} catch (error) {{
  show.textContent = 'failed: ' + error;
}}
</script>'''


def packed(name):
    with open(os.path.join(ROOT, name), 'rb') as file:
        return base64.b64encode(file.read()).decode()


def main(seed, rounds):
    browser = shutil.which('chromium') or shutil.which('chromium-browser')
    if browser is None:
        sys.exit(2)
    page = PAGE.format(module=packed('portable/spargolutta.mjs'), digest=packed('portable/wasm/digest.mjs'),
                       library=packed('target/wasm/spargolutta.wasm'), above=packed('target/wasm/digest.wasm'),
                       sheet=packed('sample/octant/zone.sheet'), seed=int(seed), rounds=int(rounds))
    with tempfile.TemporaryDirectory() as folder:
        path = os.path.join(folder, 'page.html')
        with open(path, 'w', encoding='utf-8') as file:
            file.write(page)
        done = subprocess.run([browser, '--headless', '--no-sandbox', '--disable-gpu', '--user-data-dir=' + folder,
                               '--virtual-time-budget=20000', '--dump-dom', 'file://' + path],
                              capture_output=True, text=True, timeout=120, check=True)
    shown = re.search(r'<pre id="shown">(.*?)</pre>', done.stdout, re.S)
    sys.stdout.write(shown[1] if shown else 'no page\n')


main(*sys.argv[1:3])
