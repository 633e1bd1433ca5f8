"""Scripts with expectations: what the paper asks of a line stands in comments before it.

`# expect N why`: the answer begins with the word N. `# answer TEXT`: TEXT is the whole answer, one comment for each
line of it, `# answer nothing` where nothing is printed.
"""

from wire import hexed


class Script:
    def __init__(self):
        self.lines = []

    def title(self, text):
        self.lines += ["", f"## {text}"]

    def note(self, text):
        self.lines.append(f"# {text}")

    def call(self, line, expect, why=""):
        """A line whose answer begins with this number (or `error`)."""
        self.lines += [f"# expect {expect} {why}".rstrip(), line]

    def sends(self, line, number, message, to=None, why=""):
        """A line that writes exactly this message, to this address or openly."""
        self.call_answered(line, f"{number} {hexed(message)} {'-' if to is None else hexed(to)}", why)

    def call_answered(self, line, answer, why=""):
        self.lines += [f"# expect {answer.split()[0]} {why}".rstrip(), f"# answer {answer}", line]

    def shows(self, line, *answers):
        """A line with exactly these answers; none at all where none is given."""
        self.lines += [f"# answer {answer}" for answer in answers or ["nothing"]] + [line]

    def text(self):
        return "\n".join(self.lines) + "\n"
