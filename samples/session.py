#!/usr/bin/env python3
"""Plays a session with the program: sends the requests of a text one after the other, each when the
reply to the one before it has come, and prints every reply.

    samples/session.py [WORDS] < samples/session.txt

starts ./dp_server pipe WORDS, as with --no-auto. The text is that of samples/frames.py, and may be typed
too; the word made stands for the id of the key that was rolled last, and the word protected for the
payload that was protected last, or its text. A line that is no request is told on standard error, and the
session goes on. The exit status is that of the program, and 1 where a line or a reply is none.
"""

import os
import signal
import subprocess
import sys

sys.dont_write_bytecode = True

from frames import Refused, Reply, bodies_of, request_of

TOP = os.path.dirname(os.path.dirname(os.path.abspath(__file__)))
# How many seconds the program has to end when it is told to.
ENDING = 2


class NoReply(Exception):
    """Why the session can't go on."""


def ask(program, replies, frame, kind):
    """Sends the frame of a request of this kind and waits for the reply."""
    try:
        program.stdin.write(frame)
        program.stdin.flush()
        body = next(replies, None)
        if body is not None:
            return Reply.of_body(body, kind)
    except BrokenPipeError:
        pass
    except Refused as why:
        raise NoReply(f"what came is no reply: {why}")
    raise NoReply("no reply came")


def tell(text):
    print(f"session.py: {text}", file=sys.stderr, flush=True)


def talk(program, lines, say, echo):
    """Asks for each line of the text, and says what comes. Gives whether each line was a request."""
    replies = bodies_of(program.stdout)
    made = protected = None
    is_right = True
    for number, line in enumerate(lines, 1):
        try:
            request = request_of(number, line)
            if request is None:
                continue
            frame = request.with_last(made, protected).as_bytes()
        except Refused as why:
            told = str(why)
            tell(told if told.startswith("line ") else f"line {number}: {told}")
            is_right = False
            continue
        if echo:
            say(f"> {line.decode().strip()}")
        try:
            reply = ask(program, replies, frame, request.kind)
        except NoReply as why:
            raise NoReply(f"line {number}: {why}")
        say(reply.as_text(request.kind))
        if request.kind.word == "roll":
            made = reply.value("id") or made
        if request.kind.word.startswith("protect"):
            protected = reply.value("payload") or reply.value("text") or protected
    return is_right


def end(program):
    """Ends the program and what it started, where it hasn't ended."""
    if program.poll() is None:
        for number in (signal.SIGTERM, signal.SIGKILL):
            try:
                os.killpg(program.pid, number)
                program.wait(ENDING)
            except (OSError, subprocess.TimeoutExpired):
                continue
            break


def play(command, lines, say, echo=True):
    """Plays the text to a program that these words start. Gives the exit status."""
    program = subprocess.Popen(
        command, stdin=subprocess.PIPE, stdout=subprocess.PIPE, start_new_session=True
    )
    try:
        is_right = talk(program, lines, say, echo)
        program.communicate()
    except NoReply as why:
        tell(why)
        is_right = False
        program.communicate()
    finally:
        # However this ends, the program doesn't go on.
        end(program)
    return program.returncode or (0 if is_right else 1)


def stop(number, _):
    """Ends this process in order where it is told to end."""
    sys.exit(128 + number)


def main(words):
    if words == ["--help"]:
        print(__doc__.strip())
        return 0
    for number in (signal.SIGTERM, signal.SIGHUP):
        signal.signal(number, stop)
    command = [os.path.join(TOP, "dp_server"), "pipe", *words]
    echo = not sys.stdin.isatty()
    try:
        return play(command, sys.stdin.buffer, lambda text: print(text, flush=True), echo)
    except KeyboardInterrupt:
        return 130


if __name__ == "__main__":
    sys.exit(main(sys.argv[1:]))
