"""The second program over pipes, and the script that was made with it line by line."""

import os
import subprocess

HERE = os.path.dirname(os.path.abspath(__file__))
PROGRAM = os.path.join(HERE, "..", "..", "target", "second", "second")

# A line that no script has: its answer, one line, ends the answers of the line before.
END = b"end of places\n"


class Answer:
    """The answer to one call: its number, the message written, the address it goes to."""

    def __init__(self, line):
        words = line.split(" ")
        self.line = line
        self.number = int(words[0]) if words[0].isdigit() else None
        # A bare reader's three words have a code of one digit second.
        wrote = len(words) == 3 and len(words[1]) > 1
        self.message = bytes.fromhex(words[1]) if wrote else b""
        self.to = bytes.fromhex(words[2]) if wrote and words[2] != "-" else None


class Recorder:
    """Feeds lines to the program, keeps them, and hands back the answers."""

    def __init__(self, program=None):
        self.lines, self.calls = [], 0
        self.process = subprocess.Popen([program or PROGRAM], stdin=subprocess.PIPE, stdout=subprocess.PIPE)

    def note(self, text):
        self.lines += ["", f"## {text}"]

    def call(self, line):
        self.lines.append(line)
        self.calls += 1
        self.write(line.encode("latin-1") + b"\n")
        return Answer(self.read())

    def places(self):
        """`places` prints any number of lines; nobody needs them here."""
        self.lines.append("places")
        self.calls += 1
        self.write(b"places\n" + END)
        while self.read() != "error":
            pass

    def silent(self, line):
        """A line that prints nothing."""
        self.lines.append(line)

    def write(self, data):
        self.process.stdin.write(data)
        self.process.stdin.flush()

    def read(self):
        line = self.process.stdout.readline()
        if not line:
            raise SystemExit("the second program ended")
        return line.decode().rstrip("\n")

    def close(self):
        self.process.stdin.close()
        if self.process.wait():
            raise SystemExit("the second program failed")

    def text(self):
        return ("\n".join(self.lines) + "\n").encode("latin-1")
