"""The texts of the cases: traces, scripts, reports and what is printed of them.

A text is one of three:

  "..."                             itself, with texts that it names: ${NAME} stands for that text, ${NAME*3} for it three times,
                                    and ${examples/NAME} for a file of the repository
  { text = "...", replace = [...] } a text with pairs of an old and a new text; each old one is in it exactly once
  { json = "..." }                  a value as the program prints it, on one line without spaces; it may name texts too
"""
import json
import os
import re
import tomllib

top = os.path.dirname(os.path.dirname(os.path.abspath(__file__)))
cases = os.path.join(top, "runs", "cases")
NAMED = re.compile(r"\$\{([^}*]+)(?:\*(\d+))?\}")


class BadText(Exception):
    """Why a text can't be made."""


def read(name):
    with open(os.path.join(cases, name), "rb") as file:
        return tomllib.load(file)


def made(value, named):
    """The text that this value is, with these named texts."""
    if isinstance(value, str):
        return NAMED.sub(lambda found: text_named(found[1], named) * int(found[2] or 1), value)
    if set(value) == {"json"}:
        return json.dumps(json.loads(made(value["json"], named)), separators=(",", ":"), ensure_ascii=False) + "\n"
    if set(value) != {"text", "replace"}:
        raise BadText(f"a text has no parts {', '.join(value)}")
    text = made(value["text"], named)
    for old, new in value["replace"]:
        old = made(old, named)
        if text.count(old) != 1:
            raise BadText(f"{old!r} is in a text {text.count(old)} times, and not once")
        text = text.replace(old, made(new, named))
    return text


def text_named(name, named):
    if name in named:
        return made(named[name], named)
    if os.path.dirname(name) and os.path.isfile(os.path.join(top, name)):
        return open(os.path.join(top, name)).read()
    raise BadText(f"there is no text {name}")
