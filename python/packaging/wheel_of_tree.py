"""What pip asks for a wheel (PEP 517): the package, with the library built from the repository's one C file.

It needs a C compiler and nothing from the network. With clang and wasm-ld the library as WebAssembly is in it too, for
the page that `draw` makes.
"""
import base64
import hashlib
import os
import shutil
import subprocess
import sysconfig
import tempfile
import zipfile
from pathlib import Path
from typing import Any, Dict, List

FOLDER = Path(__file__).resolve().parent.parent
TREE = FOLDER.parent
NAME, VERSION = "spargolutta", "1.0.0"
INFO = f"{NAME}-{VERSION}.dist-info"
_CALLS = ("points_number", "judge_number", "judge_place", "judge_count", "meaning_text")
_METADATA = f"Metadata-Version: 2.1\nName: {NAME}\nVersion: {VERSION}\nRequires-Python: >=3.9\n"
_ENTRIES = f"[console_scripts]\n{NAME} = {NAME}.cli:main\n"


def _compile(into: Path) -> List[Path]:
    """The shared library, and the WebAssembly form where its tools are there."""
    source, include = TREE / "portable" / "spargolutta.c", TREE / "include"
    if not source.exists():
        raise RuntimeError(f"{source} is missing: the wheel is built in the repository")
    suffix = ".dylib" if sysconfig.get_platform().startswith("macosx") else ".so"
    library, wasm = into / f"libspargolutta{suffix}", into / "spargolutta.wasm"
    subprocess.run([os.environ.get("CC", "cc"), "-std=c99", "-O2", "-shared", "-fPIC", f"-I{include}", str(source),
                    "-o", str(library)], check=True)
    if shutil.which("clang") is None or shutil.which("wasm-ld") is None:
        return [library]
    flags = ["--no-entry", "--stack-first", "-zstack-size=262144", "--gc-sections", "--strip-all",
             "--export=__heap_base", *(f"--export=spg_{call}" for call in _CALLS)]
    # Linked by itself: clang would hand the result to wasm-opt, where that is installed, without the features in use.
    compiled = into / "spargolutta.o"
    subprocess.run(["clang", "--target=wasm32", "-std=c99", "-O2", "-ffreestanding", "-mbulk-memory", f"-I{include}",
                    "-c", str(source), "-o", str(compiled)], check=True)
    subprocess.run(["wasm-ld", *flags, str(compiled), "-o", str(wasm)], check=True)
    return [library, wasm]


def build_wheel(wheel_directory: str, config_settings: Any = None, metadata_directory: Any = None) -> str:
    """Writes the wheel; its file name."""
    platform = sysconfig.get_platform().replace("-", "_").replace(".", "_")
    name = f"{NAME}-{VERSION}-py3-none-{platform}.whl"
    package = FOLDER / NAME
    files: Dict[str, bytes] = {}
    for path in sorted(package.rglob("*")):
        if path.suffix in (".py", ".js", ".html", ".typed"):
            files[path.relative_to(FOLDER).as_posix()] = path.read_bytes()
    with tempfile.TemporaryDirectory() as scratch:
        for path in _compile(Path(scratch)):
            files[f"{NAME}/{path.name}"] = path.read_bytes()
    files[f"{INFO}/METADATA"] = _METADATA.encode()
    files[f"{INFO}/WHEEL"] = f"Wheel-Version: 1.0\nGenerator: {NAME}\nRoot-Is-Purelib: false\n" \
        f"Tag: py3-none-{platform}\n".encode()
    files[f"{INFO}/entry_points.txt"] = _ENTRIES.encode()
    record = "".join(f"{path},sha256={_digest(data)},{len(data)}\n" for path, data in files.items())
    files[f"{INFO}/RECORD"] = f"{record}{INFO}/RECORD,,\n".encode()
    with zipfile.ZipFile(Path(wheel_directory) / name, "w", zipfile.ZIP_DEFLATED) as wheel:
        for path, data in files.items():
            wheel.writestr(zipfile.ZipInfo(path), data)
    return name


def prepare_metadata_for_build_wheel(metadata_directory: str, config_settings: Any = None) -> str:
    """Writes what pip wants to know before it builds; the name of the folder."""
    folder = Path(metadata_directory) / INFO
    folder.mkdir()
    (folder / "METADATA").write_text(_METADATA)
    (folder / "entry_points.txt").write_text(_ENTRIES)
    return INFO


def _digest(data: bytes) -> str:
    return base64.urlsafe_b64encode(hashlib.sha256(data).digest()).rstrip(b"=").decode()


def build_sdist(sdist_directory: str, config_settings: Any = None) -> str:
    """There is none: the library's C file is beside this folder."""
    raise NotImplementedError("install from the repository: pip install ./python")
