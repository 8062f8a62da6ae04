"""The program's options in its man page and its completions, beside those that its help names."""
import os
import re
import subprocess

TOP = os.path.dirname(os.path.dirname(os.path.dirname(os.path.abspath(__file__))))
COMMANDS = ("run", "check", "replay")
OPTION = re.compile(r"--[a-z]+")
BY_BASH = """
source packages/completions/jcache.bash
COMP_WORDS=(jcache {command} --) COMP_CWORD=2
_jcache
printf '%s\\n' "${{COMPREPLY[@]}}"
"""
# In place of zsh's own function stands one that prints what it is given.
BY_ZSH = """
_arguments() {{ print -l -- "$@"; state=words }}
words=({command})
source packages/completions/_jcache
"""


def output(*words):
    return subprocess.run(words, capture_output=True, text=True, cwd=TOP, check=True).stdout


def of_help(program, command):
    """The options that stand first in a line of the help."""
    return set(re.findall(r"^ +(?:-\w, )?(--[a-z]+)", output(program, command, "--help"), flags=re.M))


def difference(wanted, found):
    return f"wanted {sorted(wanted)}, found {sorted(found)}" if wanted != found else None


def completion_faults(program, shell, text):
    """What is wrong with a completion, by command."""
    lines = []
    for command in COMMANDS:
        found = set(OPTION.findall(output(*shell, text.format(command=command))))
        why = difference(of_help(program, command), found)
        lines += [f"{command}: {why}"] if why else []
    return "; ".join(lines)


def manual_faults(program):
    """Options that the man page lacks or invents, and what the formatter complains of."""
    with open(f"{TOP}/packages/jcache.1", encoding="utf-8") as page:
        text = page.read()
    ran = subprocess.run(["groff", "-man", "-Tutf8", "-ww", "-z"], input=text, capture_output=True, text=True, check=False)
    wanted = set().union(*(of_help(program, command) for command in COMMANDS))
    return ran.stderr.strip() or difference(wanted, set(OPTION.findall(text.replace("\\-", "-"))))
