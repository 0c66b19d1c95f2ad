"""Compares completions/, the files for bash, zsh and fish, with the helps of the built program, of which they are made.

`checks/run completions PROGRAM` fails where a file is another one, where its shell cannot read it, and where bash or
fish completes a line in another way than the rows say. `checks/run completions --write PROGRAM` writes the files.
"""
import os
import shutil
import tempfile

from checks.lib.helps import helps, listed, options, summaries
from checks.lib.repository import path, read, write
from checks.lib.rows import Row, Skipped, answer, must, output, run_rows
from checks.lib.toolchain import program

MADE = "Made of the program's help by checks/run completions."
# Words up to the cursor, and what a shell offers for the last one in a folder with the file jobs.csv.
LINES = (
    ("", "check help messages place replay report run"),
    ("re", "replay report"),
    ("run --d", "--dim --dispatchers"),
    ("run --dim 1", "1 10 11 12"),
    ("run --dim 3 jo", "jobs.csv"),
    ("run --output jo", "jobs.csv"),
    ("place --q", ""),
    ("report --q", "--quiet"),
    ("replay --stations 4", "4 40 41 42 43 44 45 46 47 48"),
    ("check ", "help place replay run"),
    ("check run --dim 12", "12"),
    ("check run --d", "--dim"),
    ("check replay --d", ""),
    ("messages --shape s", "scan"),
    ("messages jo", ""),
    ("messages --root ", ""),
    ("run -n 1", "1 10 11 12"),
    ("help r", "replay report run"),
)
BASH = """\
# Completion of cubejobs for bash. {made}
_cubejobs() {{
    local current=${{COMP_WORDS[COMP_CWORD]}} last=${{COMP_WORDS[COMP_CWORD - 1]}} command='' offered=''
    if [ "$COMP_CWORD" -gt 1 ]; then command=${{COMP_WORDS[1]}}; fi
    case $command in
        help) command='' ;;
        {groups}) if [ "$COMP_CWORD" -gt 2 ]; then command="$command ${{COMP_WORDS[2]}}"; fi ;;
    esac
    case "$command $last" in
{values}
    esac
    if [ -z "$offered" ]; then
        case "$current:$command" in
{options}
{operands}
        esac
    fi
    if [ "$offered" = FILE ]; then
        mapfile -t COMPREPLY < <(compgen -f -- "$current")
    elif [ "$offered" = - ]; then
        COMPREPLY=()
    else
        mapfile -t COMPREPLY < <(compgen -W "$offered" -- "$current")
    fi
}}
complete -o filenames -F _cubejobs cubejobs
"""
# A shell's script that shows what the file $1 makes it offer in the folder $2 after the line $3.
ASK_BASH = """\
source "$1"
cd "$2"
IFS=' '
line="$3."
COMP_WORDS=($line)
COMP_CWORD=$((${#COMP_WORDS[@]} - 1))
COMP_WORDS[COMP_CWORD]=${COMP_WORDS[COMP_CWORD]%.}
_cubejobs
printf '%s\\n' "${COMPREPLY[@]}"
"""
ASK_FISH = "source $argv[1]; cd $argv[2]; complete -C $argv[3]"
ASKED = {"bash": ["-c", ASK_BASH, "bash"], "fish": ["--no-config", "-c", ASK_FISH]}


def flags(option):
    return [f"-{option.letter}", f"--{option.name}"] if option.letter else [f"--{option.name}"]


def offered(option):
    """Returns what may follow an option: its values, the word FILE, or nothing that is known."""
    return "FILE" if option.value == "FILE" else " ".join(option.choices()) or "-"


def operands(text):
    """Returns what else may follow a command: its kinds, or the word FILE, or nothing."""
    kinds = listed(text)
    return " ".join([*kinds, "help"]) if kinds else "FILE" if "[FILE]" in text else "-"


def bash(shown):
    values, names, others = [], [], []
    for command, text in shown.items():
        for option in options(text):
            if option.value:
                cases = "|".join(f"'{command} {flag}'" for flag in flags(option))
                values.append(f"        {cases}) offered='{offered(option)}' ;;")
        every = " ".join(flag for option in options(text) for flag in flags(option))
        names.append(f"            -*:'{command}') offered='{every}' ;;")
        others.append(f"            *:'{command}') offered='{operands(text)}' ;;")
    groups = "|".join(command for command, text in shown.items() if command and listed(text))
    lists = {"values": values, "options": names, "operands": others}
    return BASH.format(made=MADE, groups=groups, **{name: "\n".join(lines) for name, lines in lists.items()})


def escaped(text):
    """Returns a text for a specification of zsh, within single quotes."""
    for sign in ("\\", "[", "]", ":"):
        text = text.replace(sign, f"\\{sign}")
    return text.replace("'", "'\\''")


def zsh_option(option):
    names = flags(option)
    may = f"({' '.join(names)})" if len(names) > 1 else ""
    name = f"'{may}'{{{','.join(names)}}}'" if len(names) > 1 else f"'{names[0]}"
    action = "_files" if option.value == "FILE" else f"({' '.join(option.choices())})" if option.choices() else " "
    value = f":{option.value}:{action}" if option.value else ""
    return f"{name}[{escaped(option.does)}]{value}'"


def zsh_arguments(text, deep):
    """Returns the lines by which zsh completes one command: its options, and its kinds or its file."""
    pad = "    " * deep
    specs = [zsh_option(option) for option in options(text)]
    kinds = listed(text)
    if kinds:
        specs += ["'1:command:->command'", "'*::argument:->argument'"]
    elif "[FILE]" in text:
        specs.append("'::FILE:_files'")
    joined = f" \\\n{pad}    ".join(specs)
    return f"{pad}_arguments {'-C ' if kinds else ''}{joined}"


def zsh_group(shown, command, deep):
    """Returns the lines by which zsh completes a command that has kinds, and the program itself."""
    pad, text = "    " * deep, shown[command]
    does = summaries(text)
    lines = [zsh_arguments(text, deep), f"{pad}case $state in"]
    lines += [f"{pad}    command)", f"{pad}        local -a commands=("]
    lines += [f"{pad}            '{name}:{escaped(about)}'" for name, about in does]
    lines += [f"{pad}        )", f"{pad}        _describe command commands ;;", f"{pad}    argument)"]
    lines.append(f"{pad}        case $line[1] in")
    for name in listed(text):
        inner = f"{command} {name}".strip()
        body = zsh_group(shown, inner, deep + 4) if listed(shown[inner]) else zsh_arguments(shown[inner], deep + 4)
        lines += [f"{pad}            {name})", f"{body} ;;"]
    lines += [f"{pad}        esac ;;", f"{pad}esac"]
    return "\n".join(lines)


def zsh(shown):
    head = ["#compdef cubejobs", f"# Completion of cubejobs for zsh. {MADE}", "_cubejobs() {", "    local state line"]
    return "\n".join([*head, zsh_group(shown, "", 1), "}", '_cubejobs "$@"']) + "\n"


def fish_when(shown, command):
    """Returns the condition by which fish knows that the words name this command."""
    if not command:
        return "__fish_use_subcommand"
    first, _, kind = command.partition(" ")
    groups = " ".join([name for name, text in shown.items() if name and listed(text) and name != first] + ["help"])
    seen = f"__fish_seen_subcommand_from {first}; and not __fish_seen_subcommand_from {groups}"
    kinds = listed(shown[first])
    if kind:
        return f"{seen}; and __fish_seen_subcommand_from {kind}"
    return f"{seen}; and not __fish_seen_subcommand_from {' '.join(kinds)}" if kinds else seen


def fish(shown):
    lines = [f"# Completion of cubejobs for fish. {MADE}", "complete -c cubejobs -f"]
    for command, text in shown.items():
        start = f"complete -c cubejobs -n '{fish_when(shown, command)}'"
        lines += [f"{start} -a {name} -d '{about}'" for name, about in summaries(text)]
        for option in options(text):
            letter = f" -s {option.letter}" if option.letter else ""
            choices = " ".join(option.choices())
            value = "" if not option.value else " -r -F" if option.value == "FILE" else f" -x -a '{choices}'"
            does = option.does.replace("\\", "\\\\").replace("'", "\\'")
            lines.append(f"{start}{letter} -l {option.name}{value} -d '{does}'")
        if operands(text) == "FILE":
            lines.append(f"{start} -F")
    names = " ".join(listed(shown[""]))
    asked = f"__fish_seen_subcommand_from help; and not __fish_seen_subcommand_from {names}"
    lines.append(f"complete -c cubejobs -n '{asked}' -a '{names}'")
    return "\n".join(lines) + "\n"


FILES = {"completions/cubejobs.bash": (bash, "bash"), "completions/_cubejobs": (zsh, "zsh"),
         "completions/cubejobs.fish": (fish, "fish")}


def is_made(file, text):
    must(read(file) == text, f"{file} is not made of this help; `checks/run completions --write PROGRAM` writes it")


def must_be_there(shell):
    if not shutil.which(shell):
        raise Skipped(f"there is no {shell}")


def is_read(file, shell):
    must_be_there(shell)
    status, _, err = answer([shell, "-n", path(file)])
    must(status == 0 and not err, f"{shell} says {err!r}")


def offers(shell, line, wanted):
    must_be_there(shell)
    with tempfile.TemporaryDirectory() as folder:
        for name in ("jobs.csv", "other.txt"):
            with open(os.path.join(folder, name), "w", encoding="ascii"):
                pass
        file = path(f"completions/cubejobs.{shell}")
        said = output([shell, *ASKED[shell], file, folder, f"cubejobs {line}"], env={**os.environ, "HOME": folder})
    got = sorted(row.partition("\t")[0] for row in said.split("\n") if row)
    must(got == wanted.split(), f"{shell} offers {got} and not {wanted.split()}")


def is_hyphen_read():
    """Sees that an option is read whose name has a hyphen."""
    must([it.name for it in options("\nOptions:\n      --a-b <N>\n          Does it\n")] == ["a-b"], "it is not read")


def rows(shown):
    yield Row("a hyphen in the name of an option", is_hyphen_read, ())
    for file, (make, shell) in FILES.items():
        yield Row(f"{file} is made of the help", is_made, (file, make(shown)))
        yield Row(f"{shell} reads {file}", is_read, (file, shell))
    for shell in ASKED:
        for line, wanted in LINES:
            yield Row(f"{shell} after `cubejobs {line}`", offers, (shell, line, wanted))


def main(words):
    shown = helps(program(words))
    if "--write" in words:
        for file, (make, _) in FILES.items():
            write(file, make(shown))
    return run_rows("completions", rows(shown))
