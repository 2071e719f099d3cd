"""What `checks/refuse_memory` and `checks/fail_devices` share: each command of the program on each sample table, run with
`checks/refuse.c` before the C library."""
import os
import subprocess
import sys

from common import PROGRAM, SAMPLES, compile_c, run, sample

COMMANDS_OF_TABLES = [["check"], ["show"], ["get", "0"], ["get", "0", "--steps"], ["values"], ["copy"], ["placement", "0"]]
COMMANDS_OF_MEN = ["index", "probe"]
FORMS = ["1", "2"]


class Preloaded:
    """Runs programs with the library before the C library, by the library's settings."""

    def __init__(self, folder):
        self.library = compile_c(folder / "refuse.so", "-shared", "-fPIC", "checks/refuse.c", "-ldl")
        self.told = folder / "asked"

    def run(self, words, data, **settings):
        """The status, the output and the errors; `data` is bytes, or a file that is open."""
        numbers = {name: str(number) for name, number in settings.items()}
        env = {**os.environ, "LD_PRELOAD": str(self.library), "ASKED": str(self.told), **numbers}
        source = {"input": data} if isinstance(data, bytes) else {"stdin": data}
        ran = subprocess.run(words, **source, capture_output=True, env=env)
        return ran.returncode, ran.stdout, ran.stderr

    def counts(self):
        """How many allocations the last run made, and how many reads and writes."""
        return tuple(map(int, self.told.read_text().split()))


def runs_of_samples():
    """For each command on each sample a label, the words and the input; `build` on the sample's dump in both forms."""
    for name, kind, file, men in SAMPLES:
        table = sample(file)
        commands = COMMANDS_OF_TABLES + [["dump", "--form", form] for form in FORMS] + [[command, *men.split()] for command in COMMANDS_OF_MEN]
        for command, *more in commands:
            yield f"{' '.join([command, *more])} {file}", [PROGRAM, command, name, kind, *more], table
        for form in FORMS:
            status, dump = run(table, "dump", name, kind, "--form", form)
            if status:
                sys.exit(f"dump of {file}: status {status}")
            yield f"build, from form {form}, {file}", [PROGRAM, "build"], dump
