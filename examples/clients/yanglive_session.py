"""A document that stays open in `yanglive session`: edits, and what is wrong after each.

    with Session("net.json", "net.yang", "site.yang") as session:
        session.edit("create /net:net/host", {"name": "edge"})
        for fault in session.faults():
            print(fault["yanglive:path"], fault["error-message"])
"""
import json
import subprocess
from contextlib import contextmanager


class Refused(Exception):
    """A request that is refused, which changed nothing: its code, and that of the value where one doesn't fit."""

    def __init__(self, answer):
        super().__init__(answer["message"])
        self.code, self.value_code = answer["refused"], answer.get("document")


class Session:
    """A document under modules; `words` are more words of the command, as `--profile rfc`."""

    def __init__(self, document, *modules, words=(), program="yanglive"):
        command = [program, "session", *words, document, *modules]
        self.process = subprocess.Popen(command, stdin=subprocess.PIPE, stdout=subprocess.PIPE)

    def __enter__(self):
        return self

    def __exit__(self, *cause):
        self.process.communicate()

    def ask(self, line):
        """The answer to a line."""
        try:
            self.process.stdin.write(line.encode() + b"\n")
            self.process.stdin.flush()
        except BrokenPipeError:
            pass  # what stands on the error side says why
        answer = json.loads(self.process.stdout.readline() or "null")
        if answer is None:
            raise EOFError(f"the session has ended, with status {self.process.wait()}")
        if "refused" in answer:
            raise Refused(answer)
        return answer

    def edit(self, line, value=None):
        """Does an edit, `create PATH` and `replace PATH` with a value; answers how many faults there were and are."""
        answer = self.ask(line if value is None else f"{line} {json.dumps(value)}")
        return answer["before"], answer["after"]

    def faults(self, first=1, count=1000):
        """So many faults from one on, each an object with RESTCONF's names."""
        return self.ask(f"faults {first} {count}")["faults"]

    def save(self, file):
        """Writes the document to a file."""
        self.ask(f"save {file}")

    @contextmanager
    def together(self):
        """The edits of a block stand or, where it raises, fall together."""
        self.ask("begin")
        try:
            yield
        except BaseException:
            self.ask("back")
            raise
        self.ask("commit")
