"""A chart whose state tells which commands of its journal are there, for the tests that stop the program.

The posts to the one session carry their number. The chart counts them, sums their numbers up, and leaves its state `next`
where a post is not the one after the last. With one thread each post is followed by its step, so that the number of
journaled commands fixes the table that `show` writes. With workers the steps may come later, so the table tells how many
posts and how many steps there are, which together have to be that number.
"""

import json
import subprocess

LABELS = ["count", "sum"]
BEFORE_POSTS = 3  # the chart, the start and the first step


def chart():
    data = [{"tag": "data", "id": label, "expr": "0"} for label in LABELS]
    added = {"count": "count + 1", "sum": "sum + _event.data.k"}
    adds = [{"tag": "assign", "location": label, "expr": expr} for label, expr in added.items()]
    return {
        "tag": "scxml",
        "kids": [
            {"tag": "datamodel", "kids": data},
            {
                "tag": "state",
                "id": "next",
                "kids": [
                    {"tag": "transition", "event": "add", "cond": "_event.data.k == count + 1", "kids": adds},
                    {"tag": "transition", "event": "add", "target": "other"},
                ],
            },
            {"tag": "state", "id": "other"},
        ],
    }


def post(number):
    """The post with that number, of many lengths, so that entries end anywhere in a block of the disk."""
    return f"post s add k={number} pad='{'x' * (number * 7919 % 700)}'"


def posted(journaled):
    """How many posts are among that many journaled commands."""
    return max(0, journaled - BEFORE_POSTS + 1) // 2


def script(journaled, count, posts=None):
    """The commands that follow on that many journaled ones, with so many posts; among them some that are refused, and
    so not journaled. With workers it has to be said how many of the journaled ones are posts."""
    lines = [f"chart sums {json.dumps(chart(), separators=(',', ':'))}", "start s sums"][journaled:]
    first = (posted(journaled) if posts is None else posts) + 1
    for number in range(first, first + count):
        lines.append(post(number))
        if number % 5 == 0:
            lines.append(f"post nobody add k={number}")
    return "".join(line + "\n" for line in lines).encode()


def table(journaled):
    """What `show` has to write of that many journaled commands."""
    lines = [f"open {journaled}", f"sessions {int(journaled > 1)}"]
    if journaled == 2:
        lines += ["s sums live in", "# 0"]
    if journaled > 2:
        waiting = (journaled - BEFORE_POSTS) % 2
        count = posted(journaled) - waiting
        lines += ["s sums live in next", f". count={count}", f". sum={count * (count + 1) // 2}", f"# {waiting}"]
    lines += ["clock 0 timers 0", "end shown"]
    return "".join(line + "\n" for line in lines).encode()


def posts_among(journaled, written):
    """How many posts are among that many journaled commands, by what `show` wrote of them after runs with workers."""
    lines = written.decode().split("\n")
    end = ["clock 0 timers 0", "end shown", ""]
    waiting = int(lines[-4].split()[1]) if journaled > 1 else 0
    count = int(lines[3].split("=")[1]) if len(lines) > 7 else 0
    whole = [f"open {journaled}", f"sessions {int(journaled > 1)}"]
    if len(lines) > 7:
        steps = count + 1
        whole += ["s sums live in next", f". count={count}", f". sum={count * (count + 1) // 2}", f"# {waiting}"]
    else:
        steps = 0
        whole += ["s sums live in", f"# {waiting}"] if journaled > 1 else []
    if lines != whole + end or journaled != min(journaled, 2) + count + waiting + steps:
        raise Found(f"show: {written[:300]!r} is not the table of {journaled} commands")
    return count + waiting


def accepted(report):
    """How many entries of a report are accepted, of which only the first part may be there."""
    replies = [line for line in report.split(b"\n")[:-1] if line.startswith(b"= ")]
    return sum(not reply.startswith(b"= refused") for reply in replies)


class Found(Exception):
    """What is not as it has to be."""


class Journal:
    """The program over the files of a folder."""

    def __init__(self, program, folder):
        self.program = program
        self.folder = folder
        self.words("init", wanted=b"created\n")

    def words(self, *words, wanted):
        done = self.run(words)
        if (done.returncode, done.stdout) != (0, wanted):
            raise Found(f"{' '.join(words)}: status {done.returncode}, {done.stdout[:300]!r} in place of {wanted[:300]!r}")

    def run(self, words, text=b"", **options):
        return subprocess.run([self.program, *words], input=text, capture_output=True, cwd=self.folder, **options)

    def commands(self, text, **options):
        """Runs a script."""
        return self.run(["run", "--workers", "0"], text, **options)

    def journaled(self, least, most):
        """How many commands are journaled, from `least` to `most`; the table has to be that of these commands."""
        count, written = self.shown(least, most)
        if written != table(count):
            raise Found(f"show: {written[:300]!r} in place of {table(count)!r}")
        return count

    def shown(self, least, most):
        """How many commands are journaled, from `least` to `most`, and what `show` writes."""
        done = self.run(["show"])
        first = done.stdout.split(b"\n")[0].split()
        if done.returncode != 0 or len(first) != 2 or first[0] != b"open":
            raise Found(f"show: status {done.returncode}, {done.stdout[:300]!r}")
        count = int(first[1])
        if not least <= count <= most:
            raise Found(f"show: {count} commands are journaled, which is not from {least} to {most}")
        return count, done.stdout
