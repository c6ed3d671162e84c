"""Reads the functions of a crate off its sources: the path of each as a check prints it, and where its item stands."""

import re
from dataclasses import dataclass
from pathlib import Path

HEAD = re.compile(r"(?m)^([ \t]*)(?:pub(?:\([^)]*\))? )?(?:const )?(?:unsafe )?(?:extern \S+ )?fn (\w+)")
OWNER = re.compile(r"(?m)^[ \t]*(?:pub )?(?:unsafe )?(impl|trait)\b([^{;]*)\{")
TYPE = re.compile(r"(?m)^[ \t]*(?:pub(?:\([^)]*\))? )?(?:struct|enum) (\w+)")
QUOTED = re.compile(r"//[^\n]*|\"(?:\\.|[^\"\\])*\"|'(?:\\[^']*|[^'\\])'")


@dataclass(frozen=True)
class Function:
    """A function: its path below the crate, its file, the part that is its item, and whether it calls itself."""

    path: str
    file: Path
    start: int
    end: int
    is_cyclic: bool


def blanked(text):
    """The text with comments, strings and characters blanked, of the same length."""
    return QUOTED.sub(lambda it: re.sub(r"[^\n]", " ", it[0]), text)


def past_braces(text, at):
    """The place behind the brace that closes the one at a place."""
    depth = 0
    for place in range(at, len(text)):
        depth += (text[place] == "{") - (text[place] == "}")
        if not depth:
            return place + 1
    return len(text)


def past_generics(text):
    """The text behind the angle brackets with which it begins, if any."""
    text, depth = text.lstrip(), 0
    for place, sign in enumerate(text if text.startswith("<") else ""):
        depth += (sign == "<") - (sign == ">" and text[place - 1] != "-")
        if not depth:
            return text[place + 1 :]
    return text


def argument_of(text):
    """The name of a trait's first argument, if it has one."""
    found = re.search(r"<\s*(?:dyn\s+)?&?\s*(?:'\w+\s+)?(?:\w+\s*::\s*)*(\w+)", text)
    return found[1] if found else ""


def type_name(text):
    """The name of a type, its path and its parameters left out, beginning with a capital; `()` is `Unit`."""
    if text.strip() == "()":
        return "Unit"
    found = re.match(r"\s*&?\s*(?:\w+\s*::\s*)*(\w+)", text)
    return found[1][0].upper() + found[1][1:] if found else ""


def arguments_in(text, own):
    """Of a type's arguments where one is no parameter: all of them, as a check prints them; else nothing."""
    found = re.search(r"<(.*)>", text, re.S)
    names = [it.strip() for it in found[1].split(",")] if found else []
    names = ["unit" if it == "()" else it for it in names if not it.startswith("'")]
    is_own = all(re.search(rf"[<,]\s*{re.escape(it)}\b", own) for it in names)
    return "" if is_own or any(set("<>[]&") & set(it) for it in names) else "+" + "+".join(names)


def owner_of(head):
    """Of the head of an impl: the type, and the trait and its first argument, if it is of one; a parameter is `Any`."""
    own = head[: len(head) - len(past_generics(head))]
    head = re.split(r"\bwhere\b", past_generics(head))[0]
    depth = 0
    for place, sign in enumerate(head):
        depth += (sign == "<") - (sign == ">" and head[place - 1] != "-")
        if not depth and re.match(r"\sfor\s", head[place : place + 5]):
            kind = type_name(head[place + 5 :])
            kind = "Any" if re.search(rf"[<,]\s*{kind}\b", own) else kind
            return kind, type_name(head[:place]), argument_of(head[:place])
    return type_name(head) + arguments_in(head, own), "", ""


def module_of(file):
    """The path of a file's module below the crate."""
    names = list(file.with_suffix("").parts[1:])
    return [] if names in (["lib"], ["main"]) else names[:-1] if names[-1] == "mod" else names


def item_end(text, start, indent):
    """Where the item that begins at a place ends: its body closes in a line of the same indent."""
    end = re.compile(rf"(?m)^{indent}(?=\S)(?:\}}|[^\n]*\{{[^\n]*\}})[ \t]*$|;[ \t]*$")
    for found in end.finditer(text, start):
        part = text[start : found.end()]
        if part.count("{") == part.count("}"):
            return found.end()
    return len(text)


def functions_of(crate):
    """The functions of a crate that have a body or a proof, but for those that macros and derives write."""
    files = {it.relative_to(crate): it.read_text() for it in sorted((crate / "src").rglob("*.rt"))}
    homes = {name: module_of(file) for file, text in files.items() for name in TYPE.findall(blanked(text))}
    heads = [owner_of(it[2]) for text in files.values() for it in OWNER.finditer(blanked(text)) if it[1] == "impl"]
    found = []
    for file, text in files.items():
        plain = blanked(text)
        owners = [(it.start(), past_braces(plain, it.end() - 1), it) for it in OWNER.finditer(plain)]
        for head in HEAD.finditer(plain):
            around = [it for start, end, it in owners if start < head.start() < end]
            if around and around[-1][1] == "trait":
                continue
            module, owner = module_of(file), []
            if around:
                kind, of, argument = owner_of(around[-1][2])
                # (a trait that a type has twice is told apart by its argument)
                is_twice = bool(of) and sum(it[:2] == (kind, of) for it in heads) > 1
                home = homes.get(kind.partition("+")[0], module)
                module, owner = (module if of else home), [kind + of + argument * is_twice]
            names = [*module, *owner, head[2]]
            end = item_end(plain, head.start(), head[1])
            is_cyclic = crate.joinpath("proofs", *names[:-1], f"+{names[-1]}").is_dir()
            is_cyclic |= "#[cycle" in plain[max(0, head.start() - 80) : head.start()]
            found.append(Function("::".join(names), file, head.start(), end, is_cyclic))
    return found
