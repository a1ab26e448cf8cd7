"""Completions for bash, zsh and fish, made from the table of words.

`cd tools && python3 -m wfdev.build.completions` writes them to tools/completions; with --check it compares them.
"""
from __future__ import annotations

import pathlib
import re
import sys

from wfdev.build import fresh, texts
from wfdev.build.words import EXTENSIONS, QUIET, TABLE

FOLDER = pathlib.Path(fresh.TOP) / "tools" / "completions"
FILES = "'*:file:_files'"
MADE = "Made by tools/wfdev/build/completions.py."
DESCRIPTION = re.compile(r"^  wf (\S+).*?  +(\S.*)$", re.M)


def program_options(word: str) -> list[str]:
    """Returns the options of one of the program's words."""
    return sorted({option for form in texts.program_forms() if form.split()[0] == word for option in re.findall(r"--[a-z]+", form)})


def descriptions() -> dict[str, str]:
    """Returns a line of description for each word."""
    found: dict[str, str] = {}
    for word, does in DESCRIPTION.findall(texts.text("OVERVIEW")):
        found.setdefault(word, does)
    return {word: found[word] for word in [*texts.program_words(), "help", "--version"]}


def bash_cases() -> list[str]:
    """Returns the cases of bash: what may follow each word."""
    cases = []
    for extension in EXTENSIONS:
        found = program_options(extension.name)
        words = f"words='{' '.join(found)}'; " if found else ""
        more = f"words='{' '.join([*found, *extension.options])}'; " if extension.options else ""
        cases += [f'    {extension.name}) {words}[ -z "$script" ] || {{ {more}kind=-f; }} ;;']
    for word in TABLE:
        files = {"file": "-f", "folder": "-d"}.get(word.argument)
        what = [f"words='{' '.join(word.options)}'"] if word.options else []
        what += [f"kind={files}"] if files else []
        cases += [f"    {word.name}) {' '.join(what)} ;;"] if what else []
    return cases


def bash() -> str:
    """Returns the completion for bash. The words of the script ./wf are offered if the command is that script."""
    ours = " ".join(word.name for word in TABLE)
    return "\n".join(
        [
            f"# Completion of wf and of the script ./wf for bash. {MADE}",
            "_wf() {",
            "  local current=${COMP_WORDS[COMP_CWORD]} first=${COMP_WORDS[1]-} words='' kind='' script='' reply",
            f"  local program='{' '.join(descriptions())}'",
            f"  local topics='{' '.join([*texts.program_words(), 'faults'])}'",
            f"  [ ! -d \"$(dirname -- \"$1\")/tools/wfdev\" ] || script='{ours}'",
            '  if [ "$COMP_CWORD" -eq 1 ]; then',
            f"    words=\"$program $script ${{script:+{QUIET}}}\"",
            '  elif [ "$first" = help ]; then',
            '    words="$topics $script"',
            "  else",
            "    case $first in",
            *(f"  {case}" for case in bash_cases()),
            "    esac",
            '    case "$current" in -*) kind='' ;; esac',
            "  fi",
            "  COMPREPLY=()",
            "  while IFS= read -r reply; do",
            '    [ -z "$reply" ] || COMPREPLY+=("$reply")',
            '  done < <(compgen ${kind:+"$kind"} -W "$words" -- "$current")',
            "}",
            "complete -o filenames -F _wf wf",
            "",
        ]
    )


def zsh_cases() -> list[str]:
    """Returns the cases of zsh: what may follow each word."""
    cases = []
    for extension in EXTENSIONS:
        found = program_options(extension.name)
        script = [f"'{option}'" for option in [*found, *extension.options]]
        given = f" || _arguments '*:option:({' '.join(found)})'" if found else ""
        offered = f"_arguments {' '.join([*script, FILES])}"
        cases += [f"    {extension.name}) [[ -n $script ]] && {offered}{given} ;;"]
    for word in TABLE:
        parts = [f"'{option}'" for option in word.options]
        parts += {"file": [FILES], "folder": ["'*:folder:_files -/'"]}.get(word.argument, [])
        cases += [f"    {word.name}) _arguments {' '.join(parts)} ;;"] if parts else []
    return cases


def zsh() -> str:
    """Returns the completion for zsh."""
    program = [f"    '{word}:{_plain(does)}'" for word, does in descriptions().items()]
    ours = [f"      '{word.name}:{_plain(word.forms[0].does)}'" for word in TABLE]
    topics = " ".join([*texts.program_words(), "faults"])
    return "\n".join(
        [
            "#compdef wf",
            f"# Completion of wf and of the script ./wf for zsh. {MADE}",
            "_wf() {",
            "  local -a commands",
            "  commands=(",
            *program,
            "  )",
            "  local script=",
            '  if [[ -d "${words[1]:h}/tools/wfdev" ]]; then',
            "    script=yes",
            "    commands+=(",
            *ours,
            "    )",
            "  fi",
            "  if (( CURRENT == 2 )); then",
            "    _describe 'command' commands",
            "    return",
            "  fi",
            "  local first=${words[2]}",
            "  shift words",
            "  (( CURRENT -= 1 ))",
            "  case $first in",
            f"    help) _values 'topic' {topics} ${{commands%%:*}} ;;",
            *zsh_cases(),
            "  esac",
            "}",
            '_wf "$@"',
            "",
        ]
    )


def fish() -> str:
    """Returns the completion for fish."""
    lines = [f"# Completion of wf and of the script ./wf for fish. {MADE}", "function __wf_is_script"]
    lines += ["  set -l command (commandline -opc)[1]", '  test -d (dirname -- "$command")/tools/wfdev', "end", "complete -c wf -f"]
    for word, does in descriptions().items():
        lines.append(f"complete -c wf -n __fish_use_subcommand -a '{word}' -d '{_plain(does)}'")
        lines += [f"complete -c wf -n '__fish_seen_subcommand_from {word}' -a '{option}'" for option in program_options(word)]
    for extension in EXTENSIONS:
        seen = f"complete -c wf -n '__wf_is_script; and __fish_seen_subcommand_from {extension.name}'"
        lines += [f"{seen} -a '{option}'" for option in extension.options] + [f"{seen} -F"]
    for ours in TABLE:
        lines.append(f"complete -c wf -n '__wf_is_script; and __fish_use_subcommand' -a '{ours.name}' -d '{_plain(ours.forms[0].does)}'")
        seen = f"complete -c wf -n '__fish_seen_subcommand_from {ours.name}'"
        lines += [f"{seen} -a '{option}'" for option in ours.options]
        lines += {"file": [f"{seen} -F"], "folder": [f"{seen} -a '(__fish_complete_directories)'"]}.get(ours.argument, [])
    topics = " ".join([*texts.program_words(), "faults"])
    return "\n".join([*lines, f"complete -c wf -n '__fish_seen_subcommand_from help' -a '{topics}'", ""])


def _plain(text: str) -> str:
    """Returns a description without the characters that end a quoted word or separate two."""
    return text.replace("'", "").replace(":", ",")


def files() -> dict[pathlib.Path, str]:
    """Returns the text of each file."""
    return {FOLDER / "wf.bash": bash(), FOLDER / "_wf": zsh(), FOLDER / "wf.fish": fish()}


def main(words: list[str]) -> int:
    """Writes the files, or with --check compares them."""
    other = 0
    FOLDER.mkdir(exist_ok=True)
    for path, text in files().items():
        if words != ["--check"]:
            path.write_text(text, encoding="utf-8")
        elif not path.is_file() or path.read_text(encoding="utf-8") != text:
            print(f"completions: {path.name} is not up to date: run python3 -m wfdev.build.completions in tools/")
            other = 1
    return other


if __name__ == "__main__":
    sys.exit(main(sys.argv[1:]))
