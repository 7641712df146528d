"""Completion of a tool for bash: options, what may stand after some of them, and names of files."""

TEXT = """\
# Completion of {command} for bash, which package/describe has made of the options that the tool knows.
{function}() {{
    local typed=${{COMP_WORDS[COMP_CWORD]}} before=${{COMP_WORDS[COMP_CWORD - 1]}}
    COMPREPLY=()
    # An option, its = and its value are three words of bash's.
    [[ $typed != = ]] || typed=
    [[ $before != = ]] || before=${{COMP_WORDS[COMP_CWORD - 2]}}
    case $before in{cases}
    *)
        if [[ $typed == -* ]]; then
            mapfile -t COMPREPLY < <(compgen -W "{options}" -- "$typed")
            return
        fi
        ;;
    esac
    compopt -o filenames 2>/dev/null
    mapfile -t COMPREPLY < <(compgen -f -- "$typed")
}}
complete -F {function} {command}
"""


def place_of(command):
    return f"share/bash-completion/completions/{command}"


def function_of(command):
    return "_" + command.replace("-", "_")


def text_of(tool):
    names = " ".join(name for option in tool.options() for name in option.long_names())
    valued = [option for option in tool.options() if option.value is not None]
    cases = "".join(f"\n{case}" for case in cases_of(valued))
    return TEXT.format(command=tool.command, function=function_of(tool.command), cases=cases, options=names)


def cases_of(options):
    """What is offered for the value of an option: one of a few, a file, or nothing where the user alone knows it."""
    for option in options:
        if option.choices:
            offered = f'mapfile -t COMPREPLY < <(compgen -W "{" ".join(option.choices)}" -- "$typed")'
            yield f"    {names_of([option])})\n        {offered}\n        return\n        ;;"
    for takes_file, end in ((True, ";;"), (False, "return ;;")):
        others = [option for option in options if not option.choices and option.takes_file() == takes_file]
        yield from [f"    {names_of(others)}) {end}"] if others else []


def names_of(options):
    return " | ".join(name for option in options for name in option.names)
