#!/usr/bin/python3
"""What eslint is told of the page's modules. Called by scripts/outside/tree/lint.sh.

    cp tools/page/*.js FOLDER; scripts/outside/tree/page_state.py >FOLDER/rules.json
    cd FOLDER; eslint --no-eslintrc -c rules.json *.js

In a browser they share one scope. Here each sees of the others their functions and constants, and the state that OWNERS
names, which it may read and its owner alone writes; any other state of a module is a name that no other knows.
"""

import json
import pathlib
import re

PAGE = pathlib.Path(__file__).resolve().parents[3] / "tools" / "page"
# The page's state, and the module that writes it; within a form's work that form is 'now'.
OWNERS = {"map": "map.js", "shown": "map.js", "rows": "rows.js", "form": "form.js", "now": "form.js",
          "outbox": "outbox.js", "tracked": "mine.js"}  # fmt: skip
FUNCTION = re.compile(r"(?m)^(?:export )?(?:async )?function (\w+)")
DECLARED = re.compile(r"(?m)^(?:export )?(const|let) (.*)")
NAMED = re.compile(r"(?:^|, )(\w+) = (new (?:Map|Set|WeakMap)\b|\{\};|\[\];)?")


def names_of(module):
    """What a module gives the others: its functions, its constants, and state that others may read."""
    text = module.read_text(encoding="utf-8")
    declared = [(kind, *it) for kind, rest in DECLARED.findall(text) for it in NAMED.findall(rest)]
    constants = {name for kind, name, is_state in declared if kind == "const" and not is_state}
    return {*FUNCTION.findall(text), *constants, *(name for name, owner in OWNERS.items() if owner == module.name)}


def rules_of(module):
    """What a module may not write, and how that is found."""
    others = "|".join(name for name, owner in OWNERS.items() if owner != module.name)
    written = [
        f"AssignmentExpression[left.object.name=/^({others})$/]",
        f"UpdateExpression[argument.object.name=/^({others})$/]",
        "CallExpression[callee.object.name='Object'][callee.property.name='assign']"
        f"[arguments.0.name=/^({others})$/]",
    ]
    message = f"{module.name} writes what another module's is: call a function of that."
    return [2, *({"selector": it, "message": message} for it in written)]


def main():
    given = {it: names_of(it) for it in sorted(PAGE.glob("*.*js"))}
    modules = [it for it in given if it.suffix == ".js"]
    overrides = [
        {
            "files": [f"**/{module.name}"],
            "rules": {"no-restricted-syntax": rules_of(module)},
            "globals": {name: "readonly" for it in given if it != module for name in given[it]},
        }
        for module in modules
    ]
    print(json.dumps({
        "env": {"browser": True, "es6": True}, "parserOptions": {"ecmaVersion": 2022},
        "globals": {"L": "readonly", "TextDecoderStream": "readonly", "BigInt": "readonly"},
        "rules": {"no-undef": 2, "no-global-assign": 2}, "overrides": overrides}))  # fmt: skip


if __name__ == "__main__":
    main()
