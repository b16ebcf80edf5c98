"""The files for editors: each in the editor that it is for, if that is installed, with an empty home folder in which
the files are where docs/EDITORS.md says."""
import difflib
import json
import os
import re
import shutil

from programs import ROOM, TOP, read, run, started, text_of, write

KINDS = {"object": dict, "array": list, "string": str, "boolean": bool}
# How Vim and Neovim say the type of a file.
SAYS = ["-c", "redir! > said", "-c", "set filetype?", "-c", "redir END", "-c", "qa!"]
# How they say what is at signs of the bank: the dropped word of line 9, THUS of line 24, and the first sign and the end
# of its picture; and what these are.
SIGNS = "[[9, 24], [24, 51], [25, 1], [26, 10]]"
COLOURS = f"echo join(map({SIGNS}, {{_, it -> synIDattr(synID(it[0], it[1], 1), 'name')}}))"
COLOURED = "filetype=simscript2 simDropped simStatement simField simPicture"
# What is loaded in place of nvim-dap, and says what it was configured with.
STUB = "package.loaded.dap = { adapters = {}, configurations = {} }\n"
CONFIGURED = """
local it = require("dap").configurations.simscript2[1]
vim.fn.writefile({ vim.fn.json_encode({ it.model, it.data() or "none", it.type }) }, "configured")
"""
# How Emacs loads its packages and the init file, and the words by which dap-mode is asked for.
EMACS = ["emacs", "--batch", "--eval", "(package-initialize)"]
HAS_DAP = [*EMACS, "--eval", "(require 'dap-mode)"]
# What tests/session.el says over the bank: each command, with the frame, its line and that of the cursor.
SESSION = """simscript2-mode
ssdap-debug MAIN 18 18
dap-continue CLOSING 54 54
T 2
shown T: 2 x.sim
dap-next CLOSING 55 55
ssdap-step-back CLOSING 54 54
dap-continue CLOSING 58 58
ssdap-reverse-continue CLOSING 57 57
T 2
no question is refused
ssdap-reverse-continue CLOSING 54 54
GO 600 DEPARTURE 47 47
focus *dap-ui-repl*
back change var t MAIN 23 23
focus *dap-ui-repl*
"""


def home(name):
    """Returns an empty folder with a model, the bank's, its data, and a model without data."""
    folder = f"{ROOM}/{name}"
    os.makedirs(folder)
    for file, model in {"x.sim": "bank.sim", "x.data": "bank.data", "alone.sim": "five.sim"}.items():
        shutil.copy(f"{TOP}/examples/{model}", f"{folder}/{file}")
    return folder


def start(folder, *words):
    """Starts an editor in a home folder; returns what its file `said` holds."""
    path = f"PATH={folder}/bin:{os.environ['PATH']}"
    environment = [f"HOME={folder}", f"XDG_CONFIG_HOME={folder}/.config", "TERM=dumb", path]
    words = ["env", "-C", folder, *environment, "timeout", "60", *words]
    status, wrote, error = run(words)
    return read(f"{folder}/said").decode() or f"{status} {wrote!r} {error!r}"


def wrong_type(name, config, *words):
    """Returns what is wrong with a model, its type and its colours, in an editor that has the files of editors/vim."""
    folder = home(name)
    for part in ("ftdetect", "syntax"):
        shutil.copytree(f"{TOP}/editors/vim/{part}", f"{folder}/{config}/{part}")
    found = start(folder, name, *words, "x.sim", "-c", "syntax on", *SAYS[:4], "-c", COLOURS, *SAYS[4:])
    return "" if found.split() == COLOURED.split() else found


def wrong_lines():
    """Returns what is wrong with the lines for Neovim: the type of a model, and its configuration."""
    folder = home("lines")
    os.makedirs(f"{folder}/.config/nvim")
    lua = STUB + text_of("editors/nvim-dap.lua")
    write(f"{folder}/.config/nvim/init.lua", lua)
    write(f"{folder}/configured.lua", CONFIGURED)
    for model, data in {"x.sim": f"{folder}/x.data", "alone.sim": "none"}.items():
        found = start(folder, "nvim", "--headless", model, "-c", "luafile configured.lua", *SAYS)
        told = json.loads(read(f"{folder}/configured") or b"[]")
        if (found.strip(), told) != ("filetype=simscript2", ["${file}", data, "ssdap"]):
            return f"{model}: {found} {told}"
    return ""


def wrong_session():
    """Returns what is wrong with a session of Emacs with dap-mode, by the keys of editors/emacs.el."""
    folder = home("emacs")
    os.makedirs(f"{folder}/bin")
    program = write(f"{folder}/bin/ssdap", f'#!/bin/sh\nexec "{started("ssdap")}" "$@"\n')
    os.chmod(program, 0o755)
    init = write(f"{folder}/init.el", f'(load "{TOP}/editors/emacs.el")\n')
    found = start(folder, *EMACS, "-l", init, "-l", f"{TOP}/tests/session.el")
    differing = difflib.ndiff(SESSION.splitlines(), found.splitlines())
    return "; ".join(it for it in differing if it[0] != " ")


def misfits(value, schema, at="package.json"):
    """Yields where a value is not as a JSON schema has it, of the words that tests/answers/vscode.json needs."""
    if not isinstance(value, KINDS[schema["type"]]):
        yield f"{at} is no {schema['type']}"
    elif "enum" in schema and value not in schema["enum"]:
        yield f"{at} is none of {schema['enum']}"
    elif "pattern" in schema and not re.fullmatch(schema["pattern"], value):
        yield f"{at} is not of the form {schema['pattern']}"
    elif schema["type"] == "array":
        for number, it in enumerate(value):
            yield from misfits(it, schema["items"], f"{at}[{number}]")
    elif schema["type"] == "object":
        known = schema.get("properties", {})
        yield from (f"{at} has no {it}" for it in schema.get("required", []) if it not in value)
        for name in value.keys() & known.keys():
            yield from misfits(value[name], known[name], f"{at}.{name}")
        if not schema.get("additionalProperties", True):
            yield from (f"{at} has {it}" for it in value if it not in known)


def unlike(manifest):
    """Yields where parts of the manifest of VS Code's extension do not fit one another, or name no file."""
    parts, folder = manifest["contributes"], f"{TOP}/editors/vscode"
    (language,), (grammar,), (debugger,) = (parts[it] for it in ("languages", "grammars", "debuggers"))
    named = [grammar["language"], *debugger["languages"], *(it["language"] for it in parts["breakpoints"])]
    yield from (f"the language {it} is not there" for it in named if it != language["id"])
    files = (language["configuration"], grammar["path"])
    yield from (f"{it} is not there" for it in files if not os.path.exists(f"{folder}/{it}"))
    scope = json.loads(read(f"{folder}/{grammar['path']}"))["scopeName"]
    if scope != grammar["scopeName"]:
        yield f"the grammar is {scope}"
    yield from wrong_launches(debugger)


def wrong_launches(debugger):
    """Yields what is wrong with the launch configurations, and the snippets, which are the same."""
    launch, given = debugger["configurationAttributes"]["launch"], debugger["initialConfigurations"]
    bodies = json.dumps([it["body"] for it in debugger["configurationSnippets"]])
    if json.loads(bodies.replace('^\\"', "").replace('\\\\$', "$").replace('\\""', '"')) != given:
        yield "the snippets are not the configurations"
    if "${command:" in json.dumps(debugger):
        yield "it asks for a command, which it has not"
    for it in given:
        names = [*launch["properties"], "type", "request", "name"]
        yield from (f"{it['name']} has {name}" for name in it if name not in names)
        yield from (f"{it['name']} has no {name}" for name in launch["required"] if name not in it)
        if it["type"] != debugger["type"]:
            yield f"{it['name']} is of another type"
        variables = {"fileDirname": f"{TOP}/examples", "fileBasenameNoExtension": "bank"}
        yield from (f"{it['name']}: {why}" for why in refused(it, variables))


def refused(configuration, variables):
    """Yields why ssdap does not launch a configuration over the bank, with variables replaced."""
    text = json.dumps(configuration)
    for name, it in {"file": f"{TOP}/examples/bank.sim", **variables}.items():
        text = text.replace(f"${{{name}}}", it)
    bodies = ['{"seq": 1, "command": "initialize"}', f'{{"seq": 2, "command": "launch", "arguments": {text}}}']
    stream = "".join(f"Content-Length: {len(it)}\r\n\r\n{it}" for it in bodies)
    status, wrote, _ = run([started("ssdap")], stream.encode())
    if "${" in text or status or wrote.count(b'"success":true') != len(bodies):
        yield f"{status} {wrote}"


def wrong_manifest():
    """Returns what is wrong with the manifest of VS Code's extension."""
    manifest = json.loads(text_of("editors/vscode/package.json"))
    wrong = [*misfits(manifest, json.loads(text_of("tests/answers/vscode.json")))]
    return "; ".join(wrong or unlike(manifest))


def wrong_kate():
    """Returns what is wrong with the configurations for Kate."""
    server = json.loads(text_of("editors/kate.json"))["dap"]["ssdap"]
    variables = {"data": f"{TOP}/examples/bank.data"}
    requests = [it["request"] for it in server["configurations"].values()]
    wrong = [why for it in requests for why in refused(it, variables)]
    is_right = server["run"] == {"command": ["ssdap"]} and all(it["command"] == "launch" for it in requests)
    return "; ".join(wrong) or ("" if is_right and requests else f"{server}")


def has(name, words=()):
    """Whether an editor is installed, with what these words ask for; if not, says that it is skipped."""
    is_there = shutil.which(name.split()[0]) and not (words and run(words)[0])
    if not is_there:
        print(f"{name} is not installed: what is tried in it is skipped")
    return is_there


def cases():
    """Yields what is tried of the files, and in each editor."""
    yield "the manifest of VS Code's extension", wrong_manifest
    yield "the configurations for Kate", wrong_kate
    if has("vim"):
        yield "vim", wrong_type, "vim", ".vim", "-u", "DEFAULTS", "-es"
    if has("nvim"):
        yield "nvim", wrong_type, "nvim", ".config/nvim", "--headless"
        yield "nvim with nvim-dap", wrong_lines
    if has("emacs with dap-mode", HAS_DAP):
        yield "emacs with dap-mode", wrong_session
