"""A running `desk script`, asked and answered through pipes, for the measures beside this file."""
import subprocess
import threading
import time

PROGRAM = "crates/desk_cli/out/desk_cli"


class Session:
    def __init__(self):
        self.run = subprocess.Popen([PROGRAM, "script"], stdin=subprocess.PIPE, stdout=subprocess.PIPE)

    def ask(self, lines):
        """The answers to some lines, and the seconds until the last of them came."""
        text = ("\n".join(lines) + "\n").encode()
        start = time.perf_counter()
        writer = threading.Thread(target=self._send, args=(text,))
        writer.start()
        pieces, missing = [], len(lines)
        while missing:
            piece = self.run.stdout.read1(1 << 20)
            assert piece, "the program ended early"
            missing -= piece.count(b"\n")
            pieces.append(piece)
        took = time.perf_counter() - start
        writer.join()
        return b"".join(pieces).decode().splitlines(), took

    def _send(self, text):
        self.run.stdin.write(text)
        self.run.stdin.flush()

    def end(self):
        self.run.stdin.close()
        assert self.run.wait() == 0


def accounts(first, count, campaigns=1, word="word"):
    """Lines that make accounts, each with its campaigns and one line; eight accounts share a word."""
    for account in range(first, first + count):
        key = f"benchkey{account}"
        yield f"0 account {key}"
        for _ in range(campaigns):
            yield f"0 campaign {account} {key} 1000000000"
        yield f"0 line {account} {key} 1 {10 + account % 90} http://bench.example/{account} {word}{(account - first) // 8} | Ad {account}"


def searches(groups, count):
    """Searches for eight places each, one group of accounts after another."""
    return [f"0 search 8 word{n % groups}" for n in range(count)]
