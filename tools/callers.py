#!/usr/bin/env python3
"""Names public functions without a caller: each `pub fn` of crates/*/src, those exported to C and `main` apart, must be called by another
function of the repository; a method, which takes self, by its name behind a dot. Exits 1 if one is not."""
import pathlib
import re
import sys

ROOT = pathlib.Path(__file__).resolve().parent.parent

# crate::module::function -> why it stays without a caller
ALLOWED = {
    name: "by value, for a host in Rattle; C is given what a call changes" for name in ("leases::open_lease", "leases::renew", "leases::query")
}

HEAD = re.compile(r"^(?P<indent> *)(?P<pub>pub )?(?P<extern>extern \"C\" )?fn (?P<name>\w+)(?P<method>\((?:&(?:mut )?)?self\b)?", re.M)
USE = re.compile(r"^use ([^;]+);", re.M)
CONTRACT = re.compile(r"^ +(?:requires|ensures|measure|invariant)\b[^{;\n]*\{", re.M)
CALL = re.compile(r"(?<![\w:.])((?:\w+::)*)(\w+)\s*\(")
METHOD_CALL = re.compile(r"\.(\w+)\(")


def behind(text, at):
    """The place behind the brace that closes the one at this place."""
    depth = 0
    for i in range(at, len(text)):
        depth += (text[i] == "{") - (text[i] == "}")
        if depth == 0:
            return i + 1
    return len(text)


def code_of(path):
    """The text of a source file without comments, ghost lines and contracts."""
    text = re.sub(r"//.*", "", path.read_text(encoding="utf-8"))
    text = re.sub(r"^ghost use [^;]*;$", "", text, flags=re.M)
    while contract := CONTRACT.search(text):
        text = text[: contract.start()] + text[behind(text, contract.end() - 1) :]
    return text


def brought(tree, above=()):
    """What a use item brings, by name: {a, b::c} opened."""
    path, _, group = tree.partition("{")
    parts = (*above, *[p for p in path.strip().split("::") if p])
    if not group:
        return {parts[-1]: parts} if parts else {}
    depth, begun, found, inside = 0, 0, {}, group.strip().removesuffix("}") + ","
    for i, sign in enumerate(inside):
        depth += (sign == "{") - (sign == "}")
        if sign == "," and depth == 0:
            if inside[begun:i].strip():
                found.update(brought(inside[begun:i].strip(), parts))
            begun = i + 1
    return found


def module_of(path):
    """The module's path, its crate's name first."""
    inside = path.relative_to(ROOT / "crates")
    crate, rest = inside.parts[0], [p.removesuffix(".rt") for p in inside.parts[2:]]
    return (crate, *[p for p in rest if p not in ("lib", "main", "mod")])


def functions_of(text):
    """(name, is public, is exported or main, is a method, body) of each function, in order."""
    heads = list(HEAD.finditer(text))
    for head, after in zip(heads, heads[1:] + [None]):
        body = text[head.end() : after.start() if after else len(text)]
        yield head["name"], bool(head["pub"]), bool(head["extern"]) or head["name"] == "main", bool(head["method"]), body


def target(module, uses, path, name):
    """The full path of the function that a call in a module names."""
    parts = [p for p in path.split("::") if p] + [name]
    if parts[0] in uses:
        parts = list(uses[parts[0]]) + parts[1:]
    if parts[0] == "crate":
        return (module[0], *parts[1:])
    if parts[0] == "super":
        return (*module[:-1], *parts[1:])
    if len(parts) == 1 or (*module, parts[0]) in MODULES:
        return (*module, *parts)
    return tuple(parts)


FILES = sorted((ROOT / "crates").glob("*/src/**/*.rt"))
MODULES = {module_of(path) for path in FILES}


def main():
    public, methods, called = {}, set(), {}
    for path in FILES:
        text, module = code_of(path), module_of(path)
        uses = {name: parts for tree in USE.findall(text) for name, parts in brought(tree).items()}
        for name, is_public, is_root, is_method, body in functions_of(text):
            here = (*module, name)
            if is_public and not is_root:
                public[here] = path.relative_to(ROOT)
                methods |= {here} if is_method else set()
            for callee in METHOD_CALL.findall(body):
                called.setdefault("." + callee, set()).add(here)
            for where, callee in CALL.findall(body):
                called.setdefault(target(module, uses, where, callee), set()).add(here)
    bad = 0
    for function, path in sorted(public.items()):
        full = "::".join(function)
        callee = "." + function[-1] if function in methods else function
        if not called.get(callee, set()) - {function} and full not in ALLOWED:
            print(f"{path}: {full} is public and has no caller")
            bad += 1
    for full in sorted(ALLOWED):
        if tuple(full.split("::")) not in public:
            print(f"tools/callers.py: {full} is allowed and is not there")
            bad += 1
    print(f"callers: {len(public)} public functions, {bad} without a caller")
    return 1 if bad else 0


if __name__ == "__main__":
    sys.exit(main())
