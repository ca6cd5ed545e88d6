"""What `--help` says of the command line, read from the text that the program holds."""
import os
import re

TOP = os.path.dirname(os.path.dirname(os.path.abspath(__file__)))


def text(*names):
    with open(os.path.join(TOP, *names), encoding="utf-8") as file:
        return file.read()


def help_text():
    return re.search(r'const HELP: &\[u8\] = b"\\\n(.*?)^";$', text("crates", "goaccess", "src", "answers.rt"), re.S | re.M).group(1)


def options():
    """Each option with the word that stands for its value, as FILE, or with None where it has no value. A row of the help begins with
    two blanks and a dash."""
    rows = re.findall(r"^  (-[\w-]+(?:, -[\w-]+)*)(?: ([A-Z]+))?(?= |$)", help_text(), re.M)
    return {name: value or None for names, value in rows for name in names.split(", ")}


def panels():
    """The names of the panels: what the row of --enable-panel lists behind "P is"."""
    listed = re.search(r"\bP is (.*?)\n\n", help_text(), re.S).group(1)
    return re.findall(r"[A-Z_]{2,}", listed)


def formats():
    """The log formats with a name."""
    listed = re.search(r"^  --log-format F (.*?), or a text", help_text(), re.S | re.M).group(1)
    return re.findall(r"[A-Z]{2,}", listed)
