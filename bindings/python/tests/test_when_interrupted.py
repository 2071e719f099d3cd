"""Calls that are interrupted: by signal handlers, destructors, forks, Ctrl-C. Each test runs in a process of its own, which
must end."""
import os
import subprocess
import sys
from pathlib import Path

import pytest
import szg
from common import LIMIT
from conftest import ROOT

BEGIN = f"""
import ctypes, gc, os, random, signal, sys, threading, time
from pathlib import Path
import szg
DATA = Path({str(ROOT / "data" / "kqvk_wdl_unpaired.rtbw")!r}).read_bytes()
FOLDER = {str(ROOT / "samples")!r}
FEN, MATE_FEN = "4K3/8/8/8/8/8/8/Q6k w", "7k/8/5K2/8/8/8/8/6Q1 w"
"""


def ended(code: str, *words: str) -> str:
    """What a program prints that must end well."""
    env = {**os.environ, "PYTHONPATH": str(Path(szg.__file__).parents[1]), "PYTHONDONTWRITEBYTECODE": "1"}
    ran = subprocess.run([sys.executable, "-W", "ignore", "-c", BEGIN + code, *words], env=env, capture_output=True, text=True, timeout=LIMIT)
    assert (ran.returncode, ran.stderr) == (0, "")
    return ran.stdout


def test_a_signal_handler_calls_what_it_interrupts() -> None:
    ended("""
tables, answers = szg.open_tablebase(FOLDER, max_tables=1), []
def handle(*_):
    answers.append((table.get(11711), tables.probe_wdl_table(FEN), tables.probe_wdl(MATE_FEN), tables.probe_dtz(MATE_FEN)))
signal.signal(signal.SIGALRM, handle)
table = szg.Table("KQvK", "wdl", DATA)
rng = random.Random(3)
while len(answers) < 1500:
    table = szg.Table("KQvK", "wdl", DATA)
    for _ in range(20):
        signal.setitimer(signal.ITIMER_REAL, rng.uniform(1e-6, 5e-4))
        assert table.get(11711) == 4 and tables.probe_wdl_table(FEN) == 2 and tables.probe_dtz_table("8/8/8/8/8/k7/8/K1Q5 w", 2)
        assert tables.probe_dtz(MATE_FEN) == 1 and tables.probe_wdl("4k3/8/8/8/8/8/8/4K2R w") == 2
while signal.getitimer(signal.ITIMER_REAL)[0]:
    time.sleep(1e-3)
assert set(answers) == {(4, 2, 2, 1)}
""")


def test_a_destructor_that_the_collector_runs_calls_what_it_interrupts() -> None:
    ended("""
answers = []
class Asks:
    def __init__(self, table, tables):
        self.me, self.table, self.tables = self, table, tables
    def __del__(self):
        answers.append((self.table.get(11711), self.tables.probe_wdl_table(FEN), self.tables.probe_wdl(MATE_FEN)))
for threshold in range(1, 60):
    gc.set_threshold(threshold)
    for _ in range(40):
        table, tables = szg.Table("KQvK", "wdl", DATA), szg.open_tablebase(FOLDER)
        Asks(table, tables)
        assert table.get(11711) == 4 and tables.probe_wdl_table(FEN) == 2 and tables.probe_wdl(MATE_FEN) == 2
gc.collect()
assert len(answers) == 59 * 40 and set(answers) == {(4, 2, 2)}
""")


def test_a_forked_process_calls_what_other_threads_have_left() -> None:
    ended("""
table, tables = szg.Table("KQvK", "wdl", DATA), szg.open_tablebase(FOLDER, max_tables=1)
sys.setswitchinterval(1e-6)
is_over = False
def ask():
    while not is_over:
        table.get(11711), tables.probe_wdl_table(FEN), tables.probe_wdl_table("4K3/8/8/8/8/8/8/R6k w"), tables.probe_dtz(MATE_FEN)
threads = [threading.Thread(target=ask) for _ in range(6)]
for thread in threads:
    thread.start()
statuses, end = [], time.monotonic() + 40
while len(statuses) < 150 and not any(statuses) and (time.monotonic() < end or len(statuses) < 5):
    child = os.fork()
    if not child:
        signal.alarm(100)
        is_right = table.get(11711) == 4 and tables.probe_wdl_table(FEN) == 2 and tables.probe_dtz(MATE_FEN) == 1
        os._exit(0 if is_right else 1)
    statuses.append(os.waitpid(child, 0)[1])
is_over = True
for thread in threads:
    thread.join()
assert not any(statuses), statuses
""")


def test_an_interrupted_call_leaks_nothing() -> None:
    """Each Ctrl-C ends the call that it comes in, and what the library holds is given back: its memory, and maps and
    descriptors."""
    ended("""
class Interrupted(BaseException):
    pass
fired = False
def interrupt(*_):
    global fired
    fired = True
    raise Interrupted
class Info(ctypes.Structure):
    _fields_ = [(name, ctypes.c_size_t) for name in "arena ordblks smblks hblks hblkhd usmblks fsmblks uordblks fordblks keepcost".split()]
system = ctypes.CDLL(None)
system.mallinfo2.restype = Info
def held():
    gc.collect()
    info = system.mallinfo2()
    maps = sum(".rtbw" in line for line in open("/proc/self/maps"))
    return info.uordblks + info.hblkhd, maps, len(os.listdir("/proc/self/fd"))
signal.signal(signal.SIGALRM, interrupt)
rng = random.Random(7)
path = FOLDER + "/KQvK.rtbw"
def wait():
    while not fired:
        # in a loop without calls Python may overlook a signal that comes while the lock of the interpreter is taken
        time.sleep(0)
def attempt(call, longest):
    global fired
    fired = False
    try:
        signal.setitimer(signal.ITIMER_REAL, rng.uniform(1e-6, longest))
        call(), wait()
    except Interrupted:
        return
    raise SystemExit("an interrupt was lost")
def once():
    table = szg.Table("KQvK", "wdl", DATA)
    attempt(lambda: (table.get(11711), table.size()), 3e-5)
    attempt(lambda: szg.Table.open(path).get(11711), 3e-4)
    attempt(table.close, 2e-5)
    table.close()
    tables = szg.open_tablebase(FOLDER)
    attempt(lambda: tables.probe_wdl_table(FEN), 4e-4)
    attempt(lambda: tables.probe_dtz(MATE_FEN), 6e-4)
    tables.close()
for _ in range(300):
    once()
before = held()
for _ in range(3000):
    once()
after = held()
assert after[1:] == before[1:], (before, after)
assert after[0] - before[0] < 1_000_000, (before, after)
""")


@pytest.mark.parametrize("comes", ["before", "after the file was looked at"])
def test_a_pipe_is_no_table(tmp_path: Path, comes: str) -> None:
    """To open it would be to wait for a writer."""
    os.mkfifo(tmp_path / "KQvK.rtbw")
    said = ended("""
with szg.open_tablebase(sys.argv[1]) as tables:
    print(tables.get_wdl(MATE_FEN))
if sys.argv[2] != "before":
    found = os.stat(FOLDER + "/KQvK.rtbw")
    os.stat = lambda path: found
try:
    szg.Table.open(sys.argv[1] + "/KQvK.rtbw")
except OSError as error:
    print(error)
""", str(tmp_path), comes)
    assert said == f"None\n[Errno 22] not a regular file: '{tmp_path}/KQvK.rtbw'\n"
