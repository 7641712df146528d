"""Completion of a tool for fish, with a few words on each option."""

HEAD = "# Completion of {} for fish, which package/describe has made of the options that the tool knows.\n"


def place_of(command):
    return f"share/fish/vendor_completions.d/{command}.fish"


def text_of(tool):
    return HEAD.format(tool.command) + "".join(f"{line_of(tool.command, option)}\n" for option in tool.options())


def quoted(text):
    return "'" + text.replace("\\", "\\\\").replace("'", "\\'") + "'"


def line_of(command, option):
    short = [f"-s {name[1:]}" for name in option.names if not name.startswith("--")]
    names = short + [f"-l {name[2:]}" for name in option.long_names()]
    return " ".join([f"complete -c {command}", *names, *value_of(option), f"-d {quoted(option.in_short())}"])


def value_of(option):
    """The words for a value: a file, one of a few, or what nobody but the user knows."""
    if option.value is None:
        return []
    if option.choices:
        return [f"-x -a {quoted(' '.join(option.choices))}"]
    return ["-r -F"] if option.takes_file() else ["-x"]
