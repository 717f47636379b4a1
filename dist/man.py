#!/usr/bin/env python3
"""man.py PROGRAM: writes the program's man page to standard output, from what its --help says."""
import re
import subprocess
import sys

PROGRAM = sys.argv[1]


def told(*words):
    """What it says under the name that it is installed under."""
    return subprocess.run(["dueproxy", *words], executable=PROGRAM, check=True, capture_output=True, text=True).stdout.rstrip("\n")


def escaped(text):
    """Text as roff takes it: a line that begins with a dot or a quote is none of its requests."""
    text = text.replace("\\", "\\e").replace("-", "\\-")
    return "\n".join("\\&" + line if line[:1] in (".", "'") else line for line in text.split("\n"))


class Help:
    """What --help says: a line about it, its usage, its lists (a title, and pairs of a word and what it means), and the rest."""

    def __init__(self, *words):
        blocks = told(*words, "--help").split("\n\n")
        self.about, usage = blocks[0], blocks[1]
        self.usage = usage.removeprefix("Usage: ")
        self.lists, self.rest = [], []
        for block in blocks[2:]:
            title, _, lines = block.partition("\n")
            if title in ("Commands:", "Arguments:", "Options:") and not self.rest:
                self.lists.append((title[:-1], [re.split(r" {2,}", line.strip(), maxsplit=1) for line in lines.split("\n")]))
            else:
                self.rest.append(block)

    def list(self, title):
        return next((items for name, items in self.lists if name == title), [])


def paragraphs(blocks):
    """As they stand, since they are tables and lines."""
    return [".PP", ".nf", escaped("\n\n".join(blocks)), ".fi"] if blocks else []


def items(pairs):
    lines = []
    for word, *meaning in pairs:
        lines += [".TP", ".B " + escaped(word), escaped(" ".join(meaning)) or "\\&"]
    return lines


def main():
    whole = Help()
    version = told("--version").split("\n")[0]
    page = [f'.TH DUEPROXY 1 "" "{version}" "User Commands"', ".SH NAME", "dueproxy \\- " + escaped(whole.about[0].lower() + whole.about[1:])]
    page += [".SH SYNOPSIS", ".B dueproxy", ".I COMMAND", "[\\fIOPTIONS\\fR]"]
    page += [".SH OPTIONS", *items(whole.list("Options")), ".SH COMMANDS"]
    for name, meaning in whole.list("Commands"):
        if name == "help":
            continue
        command = Help(name)
        page += [".SS " + escaped(command.usage), escaped(command.about) + "."]
        page += items(command.list("Arguments")) + items([it for it in command.list("Options") if "--help" not in it[0]])
        page += paragraphs(command.rest)
    page += [".SH FILES", ".TP", ".I /etc/dueproxy/dueproxy.cfg", "The configuration with which the unit of systemd starts it."]
    page += [".TP", ".I /run/dueproxy/ctl", "The control socket that the unit makes."]
    page += [".SH SEE ALSO", ".BR haproxy (1),", "and the documents in /usr/share/doc/dueproxy."]
    print("\n".join(page))


main()
