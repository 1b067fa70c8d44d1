"""Which functions of the sources a function calls, told by their names.

A call of `name` is taken for one of each function of that name in the caller's crate, or in a crate that it stands on, if the
caller's crate has the word of the type or the trait that the function belongs to; a call of a trait's method for one of the
method of each type that has the trait. So a walk that leads where no call goes is found out, and one that a call might go isn't.
"""

import re
from pathlib import Path

TOP = Path(__file__).resolve().parent.parent
FUNCTION = re.compile(r"(\s*)(?:pub(?:\(crate\))? )?(?:const )?fn (\w+)")
CALL = re.compile(r"\b([a-z_]\w*)(?:::<[^>()]*>)?\(")
# A function that is handed on by its name.
HANDED = re.compile(r"\b(?:map|map_err|and_then|join|join_mut|spawn)\(\s*(?:\w+::)*(\w+)\b")


def sources():
    """Each source as its crate, its name as in `link_window/hearing.rt`, and its text."""
    for path in sorted(TOP.glob("crates/*/src/**/*.rt")):
        crate = path.relative_to(TOP / "crates").parts[0]
        yield crate, f"{crate}/{path.relative_to(TOP / 'crates' / crate / 'src')}", path.read_text()


def below():
    """What each crate stands on."""
    lines = [line for line in (TOP / "crates.txt").read_text().splitlines() if line and not line.startswith("#")]
    return {name: ones.split() for name, ones in (line.split(":") for line in lines)}


def owners(line):
    """The type and the trait that an `impl` or a `trait` begins with."""
    if line.startswith("impl"):
        return frozenset(re.findall(r"\b[A-Z]\w+", re.sub(r"<[^<>]*>", "", line)))
    trait = re.match(r"(?:pub(?:\(crate\))? )?trait (\w+)", line)
    return frozenset([trait[1]]) if trait else None


def end_of(lines, at, indent):
    """The last line of the function that begins there: its closing brace, or, without a body, its semicolon."""
    for end in range(at, len(lines)):
        line = lines[end].rstrip()
        if line == indent + "}" or line.endswith(";") and not line.startswith(indent + "    "):
            return end
    return len(lines) - 1


def functions():
    """Every function by its file and its name: what it belongs to, and the names that it calls."""
    found = {}
    for _, file, text in sources():
        owner, lines = frozenset(), text.splitlines()
        for at, line in enumerate(lines):
            owner = frozenset() if line.startswith("}") else owners(line) or owner
            begin = FUNCTION.match(line)
            if begin:
                rest = lines[at + 1 : end_of(lines, at, begin[1]) + 1]
                body = "\n".join(each.split("//")[0] for each in rest)
                found[file, begin[2]] = (owner, {*CALL.findall(body), *HANDED.findall(body)})
    return found


def reached(found, roots):
    """All functions that these call, and those that they call, and so on."""
    words, traits, named, stands = {}, set(), {}, below()
    for crate, _, text in sources():
        words.setdefault(crate, set()).update(re.findall(r"\w+", text))
        traits.update(re.findall(r"\btrait (\w+)", text))
    for (file, name), (owner, _) in found.items():
        named.setdefault(name, []).append((file, owner))
    seen, left = set(roots), list(roots)

    def see(function):
        if function not in seen:
            seen.add(function)
            left.append(function)

    while left:
        file, name = left.pop()
        crate = file.partition("/")[0]
        for call in found[file, name][1]:
            for other, owner in named.get(call, []):
                home = other.partition("/")[0]
                if home == crate or home in stands[crate] and (not owner or owner & words[crate]):
                    see((other, call))
                    for another, its in named[call]:
                        if owner & its & traits:
                            see((another, call))
    return seen
