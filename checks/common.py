"""What the Python scripts of this repository share: its folder and program, builds and compilers, terminals, lies of checks/lies/, and the
count of what was compared. With --help a script prints the text that it begins with."""
import argparse
import contextlib
import hashlib
import os
import pty
import re
import resource
import shutil
import signal
import stat
import subprocess
import sys
import threading
from pathlib import Path
from typing import Any, BinaryIO, Callable, Dict, Iterable, List, Optional, Union

import __main__

ROOT = Path(__file__).resolve().parent.parent
BUILT = ROOT / "crates/szg_tool/out/szg_tool"
# PROGRAM is the program that is tried, by default the one that is built here.
PROGRAM = Path(os.environ.get("PROGRAM") or BUILT)
CC = os.environ.get("CC", "cc")
STOCKFISH = os.environ.get("STOCKFISH") or shutil.which("stockfish") or "/usr/games/stockfish"
COMMANDS = ["check", "show", "get", "values", "copy", "dump", "build", "index", "probe", "verify", "placement"]
# The sample tables: material, kind, file in data/, and a placement of its men.
SAMPLES = [
    ("KNvK", "wdl", "knvk_wdl_constant.rtbw", "w Kb1 Na1 kc1"),
    ("KQvK", "wdl", "kqvk_wdl_unpaired.rtbw", "w Ke8 Qa1 kh1"),
    ("KQvK", "wdl", "kqvk_wdl_paired.rtbw", "b Ke8 Qa1 kh1"),
    ("KPvK", "dtz", "kpvk_dtz_mapped.rtbz", "w Ke1 Pa2 ke8"),
]
# The bytes of each, by what its subtables are.
NAMED = zip(("constant", "unpaired", "paired", "mapped"), SAMPLES)
SAMPLE = {name: (ROOT / "data" / file).read_bytes() for name, (_, _, file, _) in NAMED}
# Seconds after which a run of the program counts as hanging. Verifying four men may take minutes on a busy machine.
LIMIT = 3600
# The last sixteen bytes of a made table.
LAST = bytes(range(16))
Word = Union[str, bytes, Path]
# Bytes by their names, which the texts of runs take (`content`).
Inputs = Dict[str, bytes]

if sys.argv[1:2] in (["-h"], ["--help"]) and ROOT in Path(sys.argv[0]).resolve().parents:
    print(__main__.__doc__)
    sys.exit()


def arguments(places: Dict[str, Any] = {}, **options: Any) -> argparse.Namespace:
    """The words of the command line: by their places, then options. Each has a default, and is of its type. What has a type in
    place of a default must be given, a list takes all words that are left, and an option whose default is False is a flag."""
    parser = argparse.ArgumentParser(add_help=False)
    for name, default in places.items():
        if isinstance(default, type):
            parser.add_argument(name, type=default)
        elif isinstance(default, list):
            parser.add_argument(name, nargs="*")
        else:
            parser.add_argument(name, nargs="?", type=type(default), default=default)
    for name, default in options.items():
        kind: Dict[str, Any] = {"action": "store_true"} if default is False else {"type": type(default), "default": default}
        parser.add_argument(f"--{name.replace('_', '-')}", **kind)
    return parser.parse_args()


def sample(file: str) -> bytes:
    return (ROOT / "data" / file).read_bytes()


def need_program() -> None:
    """Builds the program if it is missing or older than its sources. Ends the script if that fails, or PROGRAM can't be run."""
    if PROGRAM == BUILT:
        need("szg_tool")
    elif not os.access(PROGRAM, os.X_OK):
        sys.exit(f"PROGRAM is {PROGRAM}, which can't be run")


def need(*targets: str) -> None:
    """Builds targets of tools/build. Ends the script if one can't be built."""
    if subprocess.run([ROOT / "tools/build", *targets]).returncode:
        sys.exit(f"{', '.join(targets)}: not built")


def bench_libraries() -> List[Path]:
    """The static libraries for a program that calls szg_bench, which is built. KIT is the folder of the Rattle kit."""
    need("szg_bench")
    kit = os.environ.get("KIT") or Path(subprocess.check_output(["rt", "doc"], text=True).strip()).parent
    return [ROOT / "crates/szg_bench/out/libszg_bench.a", Path(kit) / "c/liblibc_c.a"]


def run(data: bytes, *words: Word) -> "tuple[int, bytes]":
    """The program's status and standard output for words and an input."""
    ran = subprocess.run([PROGRAM, *words], input=data, capture_output=True)
    return ran.returncode, ran.stdout


def write(path: Word, data: bytes) -> None:
    """Writes a file, and the folders above it."""
    os.makedirs(os.path.dirname(path), exist_ok=True)
    with open(path, "wb") as file:
        file.write(data)


def unescaped(text: bytes) -> bytes:
    """A text in which \\x and two digits stand for a byte."""
    return re.sub(rb"\\x([0-9a-f]{2})", lambda found: bytes([int(found[1], 16)]), text)


def content(text: str, data: Inputs) -> bytes:
    """Bytes: +TEXT, or those of a sample or of `data` by their NAME; after NAME may come /OLD/NEW, of which the first OLD is replaced,
    [:N] for the beginning alone, and +TEXT for what follows."""
    name, changes, end, more = re.fullmatch(r"(\w*)((?:/[^/]*/[^/[+]*)*)(?:\[:(-?\d+)\])?(?:\+(.*))?", text, re.S).groups()  # type: ignore
    found, texts = {"": b"", **SAMPLE, **data}[name], changes.encode().split(b"/")[1:]
    for old, new in zip(texts[::2], texts[1::2]):
        found = found.replace(old, new, 1)
    return found[: int(end) if end else None] + os.fsencode(more or "")


def with_digests(text: str, data: Inputs) -> str:
    """A text in which {NAME DATA} stands for a digest of a sample or of `data`."""
    def digest(found: "re.Match[str]") -> str:
        return hashlib.new(found[1], {**SAMPLE, **data}[found[2]]).hexdigest()

    return re.sub(r"\{(md5|sha\d+) (\w+)\}", digest, text)


def full_device() -> BinaryIO:
    """The device that takes no byte, open for writing; never a file of its name, which a careless writer may have left."""
    device = os.open("/dev/full", os.O_WRONLY)
    if not stat.S_ISCHR(os.fstat(device).st_mode):
        sys.exit("/dev/full is no device on this machine: nothing can be said of full outputs")
    return os.fdopen(device, "wb")


def wdl_dump(name: str, men: str, lists: Iterable[Iterable[int]]) -> bytes:
    """The dump of a WDL table with the values of each side, in form 1."""
    lines = ["szg-dump 1", f"name {name}", "kind wdl", f"end {LAST.hex()}", f"part a order 00 men {men}"]
    for side, values in enumerate([*one] for one in lists):
        lines += [f"sub a {side}", f"values {len(values)}", *map(str, values)]
    return "\n".join([*lines, ""]).encode()


def compile_c(program: Path, *words: Word) -> Path:
    """Compiles C sources, which may be paths of the repository, with more words of the compiler."""
    found = [ROOT / word if isinstance(word, str) and word.endswith(".c") else word for word in words]
    subprocess.run([CC, "-O2", "-Wall", "-Wextra", f"-I{ROOT / 'bindings'}", "-o", program, *found], check=True)
    return program


class Checks:
    """Counts what is compared, and prints each difference; with `only_first` the script ends at the first one."""

    def __init__(self, only_first: bool = False) -> None:
        self.only_first, self.count, self.faults = only_first, 0, 0

    def same(self, what: object, found: Any, due: Any) -> None:
        self.count += 1
        if found != due:
            self.fault(f"{what}: {shortened(found)}, not {shortened(due)}")

    def same_texts(self, path: Path, part: str, run: Callable[..., Any], folder: Path = ROOT, data: Inputs = {}) -> None:
        """Compares runs with a part of a file, which `== NAME` begins. A paragraph has the status and the words of a run, escaped,
        after < its standard input (`content`), and then its standard output; ! begins a line of standard error. After > comes
        the file that gets the output, which isn't compared. Lines that begin with + make files in the folder, or say what is
        there: see `step`."""
        texts = dict(text.split("\n\n", 1) for text in path.read_text(encoding="utf-8").split("== ")[1:])
        for paragraph in with_digests(texts[part], data).rstrip("\n").split("\n\n"):
            if paragraph.startswith("+ "):
                for line in paragraph.splitlines():
                    self.step(folder, line, data)
                continue
            head, _, text = f"{paragraph}\n".partition("\n")
            line, _, kept = head.partition(" > ")
            line, _, given = line.partition(" < ")
            status, *words = (unescaped(word.encode()).decode() for word in line.split(" "))
            out, errors = re.sub(r"^! .*\n", "", text, flags=re.M), "".join(re.findall(r"^! (.*\n)", text, re.M))
            found = run(*words, **({"data": content(unescaped(given.encode()).decode(), data)} if given else {}))
            if kept:
                write(folder / kept, found[1])
                found, out = (found[0], b"", found[2]), ""
            self.same(head, found, (int(status), out.encode(), errors.encode()))

    def step(self, folder: Path, line: str, data: Inputs) -> None:
        """Makes files below a folder, or compares what is there, with the words of a line; of a file that is written or compared
        the first one is its `content`."""
        verb, *words = (unescaped(word.encode()).decode(errors="surrogateescape") for word in line.split(" ")[1:])
        path = folder / words[-1]
        if verb == "put":
            for file in words[1:]:
                write(folder / file, content(words[0], data))
        elif verb == "is":
            self.same(f"what is in {path.name}", path.read_bytes(), content(words[0], data))
        elif verb == "names":
            self.same(f"the files of {words[0]}", sorted(os.listdir(folder / words[0])), words[1:])
        elif verb == "remove":
            subprocess.run(["rm", "-rf", *(folder / word for word in words)], check=True)
        elif verb == "folder":
            path.mkdir(parents=True)
        elif verb == "fifo":
            os.mkfifo(path)
        elif verb == "link":
            path.symlink_to(words[0])
        elif verb == "mode":
            path.chmod(int(words[0], 8))
        elif verb == "time":
            for file in words[1:]:
                os.utime(folder / file, ns=(5, int(words[0])))
        elif verb == "join":
            path.write_bytes(b"".join((folder / word).read_bytes() for word in words[:-1]))
        else:
            sys.exit(f"{line}: no step is named {verb}")

    def fault(self, text: object) -> None:
        self.faults += 1
        print(text, flush=True)
        if self.only_first:
            sys.exit(1)

    def end(self, text: str) -> None:
        """Prints the closing line and ends the script: with status 1 if something differs."""
        print(f"{text}, {self.faults} wrong")
        sys.exit(1 if self.faults else 0)


def shortened(answer: Any) -> Any:
    if isinstance(answer, tuple):
        return tuple(map(shortened, answer))
    return answer[:300] + b".." if isinstance(answer, bytes) and len(answer) > 300 else answer


def limit_files(most: int) -> None:
    """Lets this process write no file beyond a size, and fail where it tries."""
    signal.signal(signal.SIGXFSZ, signal.SIG_IGN)
    resource.setrlimit(resource.RLIMIT_FSIZE, (most, most))


class Terminal:
    """A terminal, and what is written on it. With `most` it hangs up once this number of bytes was written."""

    END = b"(end)"

    def __init__(self, most: Optional[int] = None) -> None:
        self.here, self.there = pty.openpty()
        self.most, self.shown = most, b""
        self.reader = threading.Thread(target=self.read)
        self.reader.start()

    def read(self) -> None:
        try:
            while not self.shown.endswith(self.END) and (self.most is None or len(self.shown) < self.most) and (chunk := os.read(self.here, 4096)):
                self.shown += chunk
        except OSError:
            pass
        os.close(self.here)

    def text(self) -> str:
        """What was written, once nobody writes any more."""
        # once this end is closed, what it still has may be lost, so it is closed after the last bytes were read
        with contextlib.suppress(OSError):
            os.write(self.there, self.END)
        self.reader.join()
        os.close(self.there)
        return self.shown.removesuffix(self.END).decode()


# ---- Lies: what a check must notice

Lie = Dict[str, str]


def read_lies(path: Path) -> List[Lie]:
    """The lies of a file: paragraphs of lines `NAME: TEXT`. A line `| TEXT` is the next line of the text before it."""
    lies: List[Lie] = [{}]
    name = ""
    for line in path.read_text(encoding="utf-8").splitlines():
        if not line:
            lies.append({})
        elif line.startswith("| ") or line == "|":
            lies[-1][name] += "\n" + line[2:]
        elif not line.startswith("#"):
            name, _, text = line.partition(": ")
            lies[-1][name.rstrip(":")] = text
            name = name.rstrip(":")
    return [lie for lie in lies if lie]


def plant(folder: Path, lie: Lie) -> None:
    """Changes a file below a folder as a lie says. Ends the script if the old text isn't there exactly once."""
    path = folder / lie["file"]
    text = path.read_text(encoding="utf-8")
    if text.count(lie["old"]) != 1:
        sys.exit(f"{lie['lie']}: {lie['file']} has its old text {text.count(lie['old'])} times")
    path.write_text(text.replace(lie["old"], lie["new"]), encoding="utf-8")
