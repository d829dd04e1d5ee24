#!/usr/bin/env python3
"""Drives `evm run` from Python, with the standard library alone: each line is sent once the reply to the one before has come.

    from driver import Engine
    with Engine() as engine:
        engine.ask("input a 2")                # ["ok 0"]
        engine.ask("add a 0 0 4 3")            # ["ok 1"]
        engine.ask("content a")                # ["ok 12"]

`ask` gives the list of the lines of the reply. `replies` sends a list of commands so, and yields each with its reply, in order.
"""
import pathlib
import subprocess

PROGRAM = pathlib.Path(__file__).resolve().parent.parent / "evm"

# The commands whose first line `ok .. COUNT` says how many lines follow.
LISTS = ("show", "section", "project", "list", "faces")


class Engine:
    """A running program. Files that its commands name lie in the folder."""

    def __init__(self, folder=".", program=PROGRAM):
        self.process = subprocess.Popen([str(program), "run"], cwd=folder, stdin=subprocess.PIPE, stdout=subprocess.PIPE, text=True)

    def __enter__(self):
        return self

    def __exit__(self, *_):
        self.close()

    def close(self) -> int:
        """Ends the input and answers the exit status of the program."""
        self.process.stdin.close()
        self.process.stdout.close()
        return self.process.wait()

    def line(self) -> str:
        """The next line that the program writes."""
        line = self.process.stdout.readline()
        if not line.endswith("\n"):
            raise RuntimeError(f"the reply is cut off (exit status {self.process.wait()})")
        return line[:-1]

    def ask(self, command: str) -> list[str]:
        """Sends one command and waits for its reply. A blank line and a comment have none."""
        self.process.stdin.write(command + "\n")
        self.process.stdin.flush()
        words = command.split()
        if not words or words[0].startswith("#"):
            return []
        reply = [self.line()]
        if not reply[0].startswith("ok"):
            return reply
        count = reply[0].split()[-1]
        if words[0] in LISTS:
            reply += [self.line() for _ in range(int(count))]
        elif words[0] == "parts":
            for _ in range(int(count)):
                reply.append(self.line())
                reply += [self.line() for _ in range(int(reply[-1].split()[1]))]
        return reply


def replies(commands, folder=".", program=PROGRAM):
    """Yields (command, reply) for each of the commands that have one."""
    with Engine(folder, program) as engine:
        for command in commands:
            reply = engine.ask(command)
            if reply:
                yield command, reply


if __name__ == "__main__":
    rooms = [(0, 0, 6, 4), (4, 2, 10, 8), (9, 0, 12, 3)]
    with Engine() as engine:
        engine.ask("input plan 2")
        for room in rooms:
            engine.ask("add plan " + " ".join(map(str, room)))
        print("boxes:", len(rooms))
        print("area of their union:", engine.ask("content plan")[0].removeprefix("ok "))
        print("perimeter:", engine.ask("boundary plan")[0].removeprefix("ok "))
