#!/usr/bin/env python3
"""convert_table.py PROGRAM: the table "Each keyword" of docs/OPERATING.md is what the program does.

Reads the table's rows, puts each line of a row into a configuration, and looks at what `dueproxy check`
and `dueproxy convert` make of it: taken, without effect or refused; kept, written otherwise, or left out,
and how much of a change is told. V stands for a value. At last each keyword that the sources of `convert`
and `check` name has to stand in the table. Prints a line for each line that is otherwise, or that is
missing, and `N of M`; exits with 1 where there is one."""
import pathlib
import re
import subprocess
import sys
import tempfile

HERE = pathlib.Path(__file__).resolve().parent.parent
SERVERS = "    server a 127.0.0.1:9001 check\n    server b 127.0.0.1:9002 check\n"
# One line of each weight, behind whose notes those of the same weight stand.
KNOWN = {"grave": "redirect location /", "marked": "cookie V", "slight": "retry-on all-retryable-errors"}
VALUES = "    timeout connect 1s\n    timeout client 1s\n    timeout server 1s\n"
SECTIONS = ("global", "defaults", "listen", "frontend", "backend", "peers", "resolvers", "userlist", "cache", "program", "mailers", "ring", "http-errors",
            "fcgi-app", "log-forward")


class Tables:
    """The rows of the document's tables behind `### Each keyword`, as the lines of a row, three cells, and whether they are settings."""

    def __init__(self):
        text = (HERE / "docs" / "OPERATING.md").read_text().split("### Each keyword\n")[1]
        self.rows = []
        within_settings = False
        for line in text.splitlines():
            if line.startswith("| HAProxy's"):
                within_settings = "setting" in line
            elif line.startswith("| `"):
                cells = [cell.strip() for cell in line.strip("|").split(" | ")]
                self.rows.append((re.findall(r"`([^`]+)`", cells[0]), cells[0].endswith("behind another"), cells[1], cells[2], within_settings))


class Tried:
    """A line in a file, and what both commands make of it."""

    def __init__(self, program, folder, line, behind, setting):
        self.program, self.path, self.line = program, folder / "tried.cfg", line
        first = line.split()[0]
        self.backends = first in ("default_backend", "use_backend")
        self.section = first in SECTIONS or first.startswith(".")
        self.behind, self.setting = behind, setting

    def checked(self):
        """What `check` does with the line."""
        head = f"listen w\n    bind 127.0.0.1:8080\n{VALUES}"
        if self.setting:
            return self.check(f"{head}    server a 127.0.0.1:9001 {self.line}\n", 6)
        if self.line == "listen":
            return self.check(f"{head}{SERVERS}", 1)
        if self.section:
            return self.check(f"{head}{SERVERS}{self.line}{'' if self.line == 'global' else ' x'}\n", 8)
        if self.line.startswith("bind ") and not self.behind:
            return self.check(f"listen w\n    {self.line}\n{VALUES}{SERVERS}", 2)
        return self.check(f"{head}{SERVERS}    {self.line}\n", 8)

    def check(self, text, number):
        self.path.write_text(text if self.line != "global" else text + "    daemon\n")
        done = subprocess.run([self.program, "check", "--explain", str(self.path)], capture_output=True, text=True)
        if done.returncode == 0:
            word = "daemon in global" if self.line == "global" else " ".join(self.line.split()[:2 if self.line.startswith("option") else 1])
            return "no effect" if re.search(rf"^warning: line \d+: {re.escape(word)} has no effect", done.stderr, re.M) or word == "description" else "takes"
        return "refuses" if f"line {number}: " in done.stdout else f"another line: {done.stdout}"

    def converted(self):
        """What `convert` says, the lines that it writes, and the number of the line."""
        known = "".join(f"    {line}\n" for line in KNOWN.values())
        extra = ""
        if self.setting:
            extra = f"    server c 127.0.0.1:9003 {self.line} maxconn 77\n"
        elif not self.section:
            extra = f"    {self.line}\n"
        mode = "" if self.line.startswith("mode") else "    mode http\n"
        bind = "    bind 127.0.0.1:8080\n"
        if self.line.startswith("bind ") and not self.behind:
            bind, extra = extra, ""
        servers = extra + SERVERS if self.line.startswith("default-server") else SERVERS + extra
        if self.line == "no option abortonclose":
            servers = f"    option abortonclose\n{servers}"
        if self.backends:
            text = (f"frontend w\n{bind}{mode}    default_backend web\n{known}{extra if not self.line.startswith('default') else ''}"
                    f"backend web\n    balance leastconn\n    mode http\n{VALUES}{SERVERS}backend other\n    mode http\n    server d 127.0.0.1:9004\n")
        elif self.line in ("frontend", "backend"):
            text = f"frontend w\n{bind}{mode}    default_backend web\n{known}backend web\n    balance leastconn\n    mode http\n{VALUES}{SERVERS}"
        elif self.line == "defaults":
            text = f"defaults\n{mode}{VALUES}listen w\n{bind}    balance leastconn\n{known}{SERVERS}"
        else:
            text = f"listen w\n{bind}{mode}{VALUES}    balance leastconn\n{known}{servers}"
        if self.section and self.line not in ("frontend", "backend", "defaults", "listen"):
            text += f"{self.line}\n    daemon\n" if self.line == "global" else f"{self.line} x\n    something V\n"
        self.path.write_text(text)
        done = subprocess.run([self.program, "convert", str(self.path)], capture_output=True, text=True)
        wanted = self.line if not self.setting else extra.strip()
        lines = [line.strip() for line in text.splitlines()]
        return done, len(lines) - lines[::-1].index(wanted) if wanted in lines else 0

    def weight(self, told, number):
        """The weight of the note on a line of this number, by those around it; None where there is none."""
        at = {}
        found = None
        for place, row in enumerate(told.splitlines()):
            lines, _, label = row.partition(": ")
            numbers = [int(word) for word in re.findall(r"\d+", lines)] if lines.startswith("line") else []
            for weight, line in KNOWN.items():
                if label.startswith(f"{line.split()[0]}: ") or label.startswith(f"{' '.join(line.split()[:2])}: "):
                    at.setdefault(weight, place)
            if number in numbers:
                found = place
        if found is None:
            return None
        return "grave" if found < at["marked"] and found <= max(at["grave"], at["marked"] - 1) else "marked" if found < at["slight"] else "slight"

    def wrong(self, check, convert):
        seen = self.checked()
        if seen != check:
            return f"check: {seen} in place of {check}"
        done, number = self.converted()
        if convert == "status 3":
            return None if done.returncode == 3 else f"convert: status {done.returncode}"
        if done.returncode not in (0, 6):
            return f"convert: status {done.returncode}: {done.stderr}"
        words = convert.split(", ")
        weight = next((word for word in words if word in KNOWN), None)
        if self.weight(done.stderr, number) != weight:
            return f"convert tells {self.weight(done.stderr, number)} in place of {weight}: {done.stderr}"
        return self.wrong_with([line.strip() for line in done.stdout.splitlines()], convert)

    def wrong_with(self, written, convert):
        """What is wrong with the lines that are written."""
        live = [line for line in written if not line.startswith("#")]
        inner = re.search(r"writes `([^`]+)`", convert)
        if self.setting:
            return self.wrong_server(live, convert)
        if inner:
            good = inner[1] in live
        elif convert == "keeps":
            good = self.line in live
        elif convert == "writes":
            good = "listen w" in live and {"defaults", "backend web", "frontend w"}.isdisjoint(live) and any(line.startswith("bind ") for line in live)
            good = good and (self.line != "defaults" or "timeout client 1s" in live)
        elif self.section:
            good = not any(line.startswith(self.line) or "something" in line for line in written)
        else:
            good = f"# {self.line}" in written and self.line not in live
            good = good and (self.line != "no option abortonclose" or "option abortonclose" not in live)
        return None if good else f"convert writes {live}"

    def wrong_server(self, live, convert):
        """How many words belong to a setting is seen by the one behind it."""
        line = next((line for line in live if line.startswith("server c ")), None)
        if "no place" in convert:
            return None if line is None else f"convert writes {line}"
        if line is None:
            return "convert writes no server"
        if self.line == "maxconn 4":
            return None if "maxconn 77" in line else f"convert writes {line}"
        kept = self.line in line
        weight = "weight 0" in line
        return None if "maxconn 77" in line and kept == (convert == "keeps") and weight == (self.line == "backup") else f"convert writes {line}"


def named_in_sources():
    """The keywords of convert's and check's own tables, as they stand in lines; settings of servers apart."""
    fates = (HERE / "crates" / "config_convert" / "src" / "fates.rt").read_text()
    lines, settings = set(), set()
    for name, before in (("KEYWORDS", ""), ("OPTIONS", "option "), ("ACTIONS", "http-request "), ("TIMES", "timeout "), ("SETTINGS", None)):
        body = re.search(rf"static {name}: .*?^\];", fates, re.S | re.M)[0]
        for words in re.findall(r"words: &\[(.*?)\]", body, re.S):
            for word in re.findall(r'"([^"]+)"', words):
                (settings if before is None else lines).add(word if before is None else before + word)
    advising = (HERE / "crates" / "config_advice" / "src" / "advising.rt").read_text()
    for name, before in (("KEYWORDS", ""), ("OPTIONS", "option "), ("ACTIONS", "http-request ")):
        body = re.search(rf"const {name}: .*?^\];", advising, re.S | re.M)[0]
        lines |= {before + word for word in re.findall(r'\(\s*"([^"]+)",', body)}
    knowns = (HERE / "crates" / "config_advice" / "src" / "knowns.rt").read_text()
    for name, before in (("LINES", ""), ("OPTIONS", "option "), ("TIMES", "timeout "), ("ACTIONS", "http-request "), ("SETTINGS", None)):
        for word in re.findall(r'"([^"]+)"', re.search(rf"const {name}: [^=]*= \[(.*?)\];", knowns, re.S)[1]):
            (settings if before is None else lines).add(word if before is None else before + word)
    return lines, settings


def main(program):
    rows = Tables().rows
    total = right = 0
    with tempfile.TemporaryDirectory() as folder:
        for lines, behind, check, convert, setting in rows:
            for line in lines:
                total += 1
                wrong = Tried(program, pathlib.Path(folder), line, behind, setting).wrong(check, convert)
                right += not wrong
                if wrong:
                    print(f"FAILED  {'server .. ' if setting else ''}{line}: {wrong}", flush=True)
    for keywords, setting in zip(named_in_sources(), (False, True)):
        there = [line for lines, *_, of_setting in rows if of_setting == setting for line in lines]
        for word in sorted(keywords):
            total += 1
            found = any(line == word or line.startswith(word + " ") for line in there)
            right += found
            if not found:
                print(f"FAILED  {'server .. ' if setting else ''}{word}: no row of the table has it", flush=True)
    print(f"{right} of {total}")
    sys.exit(right != total)


main(sys.argv[1])
