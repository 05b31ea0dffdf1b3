"""Runs the program `ftl` on sources that nest deep: see run.sh."""

import os
import subprocess
import sys
import tempfile

from nested import ARGUMENT, ID, REQUEST, SHAPES, source

COMMANDS = ("check", "lint", "run", "format", "clean", "normalize", "export", "import")
# What `format` takes before the file.
FORMATS = ("--argument", ARGUMENT, ID)
LEAST, MOST = 10, 1_000_000
ANSWERED, FOUND, NO_JSON, OUT_OF_MEMORY = 0, 1, 1, 4


class Trial:
    """The program, a folder for what it is given, and the runs that ended as none should."""

    def __init__(self, program, folder):
        self.program = program
        self.folder = folder
        self.wrong = []

    def answers(self, command, shape, depth):
        """Whether a command answers a source of this shape, so deep."""
        text = source(shape, depth)
        if command == "import":
            done = self.call("export", text)
            if done.returncode != ANSWERED:
                return False
            text = done.stdout
        status = self.call(command, text).returncode
        # JSON that nests more than 127 deep is none to `import`.
        may_be_no_json = command == "import" and status == NO_JSON
        # `lint` may have found something, and the text of `format` may have an error.
        is_answered = status == ANSWERED or command in ("lint", "format") and status == FOUND
        if not is_answered and status != OUT_OF_MEMORY and not may_be_no_json:
            how = f"signal {-status}" if status < 0 else f"status {status}"
            self.wrong.append(f"{command} of {depth} {shape}: {how}")
        return is_answered

    def call(self, command, text):
        """One run of a command on a file with this text. What it writes is kept if it is to be imported."""
        path = os.path.join(self.folder, "deep")
        with open(path, "wb") as file:
            file.write(text)
        written = subprocess.PIPE if command == "export" else subprocess.DEVNULL
        asked = {"input": REQUEST} if command == "run" else {"stdin": subprocess.DEVNULL}
        words = [self.program, command, *(FORMATS if command == "format" else ()), path]
        return subprocess.run(words, stdout=written, stderr=subprocess.DEVNULL, **asked)

    def greatest(self, command, shape):
        """The greatest depth that is answered, to one per cent. Each power of ten is tried."""
        answered, refused = 0, MOST + 1
        depth = LEAST
        while depth <= MOST:
            if self.answers(command, shape, depth):
                answered = depth
            else:
                refused = min(refused, depth)
            depth *= 10
        while refused - answered > max(1, answered // 100):
            depth = (answered + refused) // 2
            if self.answers(command, shape, depth):
                answered = depth
            else:
                refused = depth
        return answered


def main(program):
    with tempfile.TemporaryDirectory() as folder:
        trial = Trial(program, folder)
        print(f"{'levels answered':24}" + "".join(f"{command:>11}" for command in COMMANDS))
        for shape in SHAPES:
            depths = (trial.greatest(command, shape) for command in COMMANDS)
            print(f"{shape:24}" + "".join(f"{depth:>11,}" for depth in depths), flush=True)
    for run in trial.wrong:
        print(run)
    return 1 if trial.wrong else 0


if __name__ == "__main__":
    sys.exit(main(sys.argv[1]))
