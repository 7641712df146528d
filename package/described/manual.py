"""The manual page of a tool."""
import re

from .tools import FILES, ROOT

# In a text of argparse: what stands in back quotes, and options without.
CODE = re.compile(r"`([^`]*)`|(?<![\w-])(--?[a-z][a-z-]*)")


def place_of(command):
    return f"share/man/man1/{command}.1"


def text_of(tool):
    version = (ROOT / "VERSION").read_text(encoding="ascii").strip()
    lines = [
        f'.\\" Made by package/describe of what {tool.command} says of its options.',
        f'.TH {escaped(tool.command.upper())} 1 "" "Sigdorf {version}" "User Commands"',
        ".SH NAME",
        f"{escaped(tool.command)} \\- {name_line(tool)}",
        ".SH SYNOPSIS",
        synopsis_of(tool),
        ".SH DESCRIPTION",
        *paragraphs_of(tool.description),
        *files_of(tool),
        ".SH OPTIONS",
        *(line for title, options in tool.groups for line in lines_of_group(title, options)),
        '.SH "SEE ALSO"',
        see_also(tool),
    ]
    return "\n".join(lines) + "\n"


def name_line(tool):
    """What the tool does, as a list of manual pages shows it: without a capital, and without marks."""
    told = tool.in_short().replace("`", "")
    return escaped(told[0].lower() + told[1:])


def synopsis_of(tool):
    files = (f"[{italic(file.value)}]" if file.is_left_out else italic(file.value) for file in tool.files)
    return " ".join([bold(tool.command), f"[{italic('options')}]", *files])


def paragraphs_of(text):
    """The paragraphs of a text; lines of one are filled together. What the status tells is one of its own."""
    paragraphs = [" ".join(part.split()) for part in re.split(r"\n\s*\n|\n(?=Status )", text)]
    for place, paragraph in enumerate(filter(None, paragraphs)):
        yield from [".PP"] * (place > 0)
        yield marked(paragraph)


def files_of(tool):
    for file in tool.files:
        yield from [".TP", italic(file.value), marked(file.help or "")]


def lines_of_group(title, options):
    """The options of a group. argparse's own group has no title of ours."""
    yield from [] if title == "options" else [f'.SS "{escaped(title[0].upper() + title[1:])}"']
    for option in options:
        names = ", ".join(map(bold, option.names))
        value = "|".join(map(bold, option.choices)) if option.choices else italic(option.value or "")
        yield from [".TP", f"{names} {value}".rstrip() if option.value else names, marked(option.help)]


def see_also(tool):
    others = ["auction", *(command for command in FILES if command != tool.command)]
    pages = f"The pages in {italic('share/doc/sigdorf')}, first {italic('docs/PLANNING.md')}."
    return ",\n".join(f"{bold(name)}(1)" for name in others) + f"\n.PP\n{pages}"


def escaped(text):
    """A text that groff writes as it stands, hyphens as those of a keyboard."""
    text = text.replace("\\", "\\e").replace("-", "\\-")
    return "\\&" + text if text.startswith((".", "'")) else text


def bold(text):
    return f"\\fB{escaped(text)}\\fR"


def italic(text):
    return f"\\fI{escaped(text)}\\fR" if text else ""


def marked(text):
    """A text with commands and options in bold."""
    parts, end = [], 0
    for found in CODE.finditer(text):
        parts += [escaped(text[end : found.start()]), bold(found[1] or found[2])]
        end = found.end()
    return "".join([*parts, escaped(text[end:])])
