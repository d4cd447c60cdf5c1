"""The program run on words and bytes, many times a second: `again.c` calls its `main` again and again in one process."""

import os
import struct
import subprocess
import typing

TOOLS = os.path.dirname(os.path.abspath(__file__))
TOP = os.path.dirname(TOOLS)
# The variable names another program than the proved one of this repository.
PROGRAM = os.environ.get("AVROCAT", os.path.join(TOP, "crates", "avrocat", "out", "avrocat"))


def bytes_of(word):
    return word if isinstance(word, bytes) else word.encode()


def run_alone(words, data):
    """Exit status, standard output and standard error of the program, in a process that is started for it."""
    done = subprocess.run([PROGRAM, *words], input=data, capture_output=True)
    return done.returncode, done.stdout, done.stderr


def library_of(folder):
    """The path of the library, built into a folder."""
    library = os.path.join(folder, "again.so")
    source = os.path.join(TOOLS, "again.c")
    subprocess.run(["cc", "-O2", "-shared", "-fPIC", "-o", library, source, "-ldl"], check=True)
    return library


def text(data):
    return struct.pack("=I", len(data)) + data


class Request(typing.NamedTuple):
    """A run: its words and its input; which growth, which read and which write is refused, counted from 1, none for 0; and how many
    bytes a read or a write takes at most."""

    words: list
    data: bytes
    growth: int = 0
    read: int = 0
    write: int = 0
    piece: int = 1 << 20

    def sent(self):
        numbers = struct.pack("=IIII", self.growth, self.read, self.write, self.piece)
        words = [text(bytes_of(word)) for word in self.words]
        return b"".join([numbers, text(self.data), struct.pack("=I", len(words)), *words])


class Answer(typing.NamedTuple):
    """What a run gave: exit status, standard output and standard error; and how many growths, reads and writes there were."""

    given: tuple
    growths: int
    reads: int
    writes: int


class Server:
    """A process that calls the program's `main` for each request."""

    def __init__(self, library):
        requests, sent = os.pipe()
        told, answers = os.pipe()
        environment = {"LD_PRELOAD": library, "REQUESTS": str(requests), "ANSWERS": str(answers)}
        self.process = subprocess.Popen([PROGRAM], pass_fds=(requests, answers), env=environment)
        os.close(requests)
        os.close(answers)
        self.requests, self.answers = os.fdopen(sent, "wb"), os.fdopen(told, "rb")

    def number(self):
        data = self.answers.read(4)
        if len(data) < 4:
            raise EOFError("the program's process ended")
        return struct.unpack("=I", data)[0]

    def answer(self):
        status, *counts = (self.number() for _ in range(4))
        out, note = (self.answers.read(self.number()) for _ in range(2))
        return Answer((status, out, note), *counts)

    def run_all(self, requests):
        """The answer of each request."""
        sent = [struct.pack("=I", len(requests)), *(request.sent() for request in requests)]
        self.requests.write(b"".join(sent))
        self.requests.flush()
        return [self.answer() for _ in requests]

    def close(self):
        self.requests.close()
        self.process.wait()
