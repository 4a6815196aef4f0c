"""Runs the bench program: target/bin/bench, or the command in the variable BENCH."""

import collections
import os
import resource
import shlex
import subprocess

HERE = os.path.dirname(os.path.abspath(__file__))
ROOT = os.path.dirname(os.path.dirname(HERE))
PROGRAM = shlex.split(os.environ.get("BENCH", "")) or [os.path.join(ROOT, "target", "bin", "bench")]
SECONDS = 10

# the exit status (below 0: a signal) and all that was printed, errors too
Ended = collections.namedtuple("Ended", "status output")


class Hangs(Exception):
    """The program was still running after the time allowed, and was killed."""


def limited(megabytes):
    """For a child process: no more address space than that."""
    def limit():
        resource.setrlimit(resource.RLIMIT_AS, (megabytes << 20, megabytes << 20))
    return limit if megabytes else None


def run(words, script=None, stdin=None, seconds=SECONDS, megabytes=None, stdout=subprocess.PIPE):
    """The script is sent through a pipe; or stdin is an open file."""
    try:
        done = subprocess.run(PROGRAM + words, input=script, stdin=stdin, stdout=stdout, stderr=subprocess.STDOUT, timeout=seconds,
                              close_fds=False, preexec_fn=limited(megabytes), check=False)
    except subprocess.TimeoutExpired:
        raise Hangs("still running after %d s: %s" % (seconds, " ".join(words)[:100])) from None
    return Ended(done.returncode, done.stdout)


def start(words):
    """The program with a pipe on both sides, for talking to it line by line."""
    return subprocess.Popen(PROGRAM + words, stdin=subprocess.PIPE, stdout=subprocess.PIPE, stderr=subprocess.STDOUT, bufsize=0)


def difference(ended, expected):
    """What is wrong with a run; nothing if it is right."""
    if ended.status != 0:
        return "exit status %d" % ended.status
    if ended.output == expected:
        return None
    got, wanted = ended.output.split(b"\n"), expected.split(b"\n")
    at = next((n for n, (a, b) in enumerate(zip(got, wanted)) if a != b), min(len(got), len(wanted)))
    return "output line %d is %s, expected %s" % (at + 1, quoted(got, at), quoted(wanted, at))


def quoted(lines, at):
    return repr(lines[at][:80]) if at < len(lines) else "missing"
