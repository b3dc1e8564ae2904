"""Tests the settings of editors in each editor without a screen: the error that it shows in a file, after an edit, and by `:make`, and the colours."""
import json
import os
import re
import shutil
import subprocess
import xml.etree.ElementTree
import zipfile

from .client import HERE, NotTried, check, expect
from .debug_client import DebugClient
from .explanations import FAULT as TOLD
from .explanations import FAULTY, explained_by
from .names import editor

GREETED = r'greeted 0 "who? Anx\b \b\r\nhi An\r\nCOOL program successfully executed\r\n"'
SHOWN = TOLD + ": expected Int, found Bool"
FACTS = ("- expected Int, found Bool  To fix it: give a value of the declared class, or of a class below it.  "
         "Tried, as an edit (code action): `1` for `true`.")
PREMISE = "T ≤ T₁"
MENDED = 'mended:   s : String <- "ä𝒙"; t : Int <- 1;'
SECONDS = 120
VIM = ["--cmd", "set runtimepath^=%s" % str(HERE / "vim").replace(" ", "\\ "), "--cmd", "filetype plugin on", "--cmd", "syntax on"]


def said_in(room, words, call, **environment):
    """The output of an editor about the file, and its version."""
    if not shutil.which(call[0]):
        raise NotTried("%s is not installed" % call[0])
    folder = room / "a b é"
    folder.mkdir(exist_ok=True)
    (folder / "m.cl").write_text(FAULTY)
    given = {"COOL": words.cool, "COOL_EXPLAIN": explained_by(room), "COOL_SAID": str(room / "said"), "COOL_FILE": str(folder / "m.cl")}
    given.update({"HOME": str(room), "LC_ALL": "C.UTF-8"})
    environment = {**os.environ, **given, **environment}
    call = [folder / "m.cl" if word == "FILE" else word for word in call]
    done = subprocess.run(call, env=environment, cwd=room, timeout=SECONDS, stdin=subprocess.DEVNULL, stdout=subprocess.PIPE, stderr=subprocess.STDOUT)
    if not (room / "said").exists():
        raise AssertionError("%s wrote nothing: %s" % (call[0], done.stdout.decode("utf-8", "replace")))
    version = subprocess.run([call[0], "--version"], stdout=subprocess.PIPE).stdout.decode().split("\n")[0].split(" (")[0]
    return (room / "said").read_text().splitlines(), version


def neovim(room, words):
    call = ["nvim", "--clean", "--headless", *VIM, "FILE", "-c", "luafile %s" % (HERE / "tests" / "neovim.lua")]
    said, version = said_in(room, words, call)
    expect("Neovim", said, ["2:26-27 " + SHOWN, "1 told", *FACTS.split("  "), PREMISE, "definition: 1:7", MENDED, "0 told", "laid out: true",
                            "make: 2 E17: " + TOLD, "coolKeyword coolString"])
    said, _ = said_in(room, words, call, COOL="/nowhere/cool", COOL_ONCE="1")
    expect("no program", said[0], "1:0-0 not checked: /nowhere/cool does not start: no such file or directory")
    later = "lua vim.lsp.start = function(config) vim.lsp.buf_attach_client(0, vim.lsp.start_client(config)) end"  # as from 0.8 on
    said, _ = said_in(room, words, [*call[:1], "--cmd", later, *call[1:]], COOL_ONCE="1")
    expect("by vim.lsp.start", said, ["2:26-27 " + SHOWN, "1 told"])
    return version


def neovim_debugging(room, words):
    """A stand-in for nvim-dap gets the adapter and the configurations."""
    stand_in = "lua package.loaded.dap = { adapters = {}, configurations = {} }"
    tell = ("lua local d = require('dap'); local c = d.configurations.cool[1]; "
            "vim.fn.writefile({ d.adapters.cool.command, c.type .. ' ' .. c.request .. ' ' .. c.program }, vim.env.COOL_SAID); vim.cmd('qall!')")
    said, version = said_in(room, words, ["nvim", "--clean", "--headless", "--cmd", stand_in, *VIM, "FILE", "-c", tell])
    expect("nvim-dap", said, [str(HERE / "cool-dap"), "cool launch ${file}"])
    return version + " with a stand-in of nvim-dap"


def vim_make(room, words):
    said, version = said_in(room, words, ["vim", "-Nu", "NONE", "-es", *VIM, "FILE", "-S", HERE / "tests" / "vim.vim"])
    expect("Vim", said, ["make: 2 E17: " + TOLD, "coolKeyword coolString"])
    return version


def vim_with_ale(room, words):
    if not os.path.exists("/usr/share/vim-ale"):
        raise NotTried("vim-ale is not installed")
    said, version = said_in(room, words, ["vim", "-Nu", "NONE", "-es", "--cmd", "packadd ale", *VIM, "FILE", "-S", HERE / "tests" / "vim.vim"], COOL_ALE="1")
    # ALE takes the columns of UTF-16 for bytes, and so is at 24 behind these letters, and not at 27.
    expect("Vim with ALE", said, ["2:24 E17: " + SHOWN, "1 told", "0 told", "make: 2 E17: " + TOLD, "coolKeyword coolString"])
    return version + " with ALE"


def emacs(room, words):
    call = ["emacs", "-q", "--batch", "-l", HERE / "tests" / "emacs.el"]
    eglot = ["emacs", "-q", "--batch", "--eval", "(progn (package-initialize) (require 'eglot))"]
    if shutil.which("emacs") and subprocess.run(eglot, stderr=subprocess.DEVNULL).returncode:
        raise NotTried("eglot is not installed")
    said, version = said_in(room, words, call, COOL_MODE=str(HERE / "emacs" / "cool-mode.el"), COOL_MAKE="'%s' check m.cl" % words.cool)
    expect("Emacs", said, ["cool-mode", "2:22-23 cool [E17]: " + SHOWN, "1 told", MENDED, "0 told", "laid out:   main() : Object { 0 };",
                           "definition: line 1", "outline: (Method Class Field)",
                           "font-lock-keyword-face font-lock-string-face", "next error: m.cl, line 2"])
    return version


def package(room):
    """The package of VS Code, unpacked: the folder of the extension."""
    for name in ("one.vsix", "two.vsix"):
        subprocess.run([HERE / "vscode" / "package", room / name], check=True)
    expect("the same each time", (room / "one.vsix").read_bytes() == (room / "two.vsix").read_bytes(), True)
    with zipfile.ZipFile(room / "one.vsix") as found:
        expect("sums", found.testzip(), None)
        found.extractall(room / "unpacked")
    return room / "unpacked" / "extension"


def vscode_package(room, words):
    """Its manifest, its types and what package.json names, as VS Code asks for them."""
    extension = package(room)
    subprocess.run([HERE.parent / "install", room / "prefix"], stdout=subprocess.DEVNULL, stderr=subprocess.DEVNULL, check=True)
    subprocess.run([room / "prefix" / "lib" / "cool" / "editors" / "vscode" / "package", room / "installed.vsix"], check=True)
    expect("of what is installed", (room / "installed.vsix").read_bytes() == (room / "one.vsix").read_bytes(), True)
    about = json.loads((extension / "package.json").read_text())
    expect("fields", [key for key in ("name", "publisher", "version", "engines", "main") if not about.get(key)], [])
    expect("name", bool(re.fullmatch(r"[a-z0-9][a-z0-9-]*", about["name"]) and re.fullmatch(r"\d+\.\d+\.\d+", about["version"])), True)
    languages, grammars = about["contributes"]["languages"], about["contributes"]["grammars"]
    named = [about["main"], about["icon"], *(it["path"] for it in about["contributes"]["snippets"]),
             *(step["media"]["markdown"] for it in about["contributes"]["walkthroughs"] for step in it["steps"]),
             *(language["configuration"] for language in languages), *(grammar["path"] for grammar in grammars)]
    expect("files", [name for name in named if not (extension / name).is_file()], [])
    for name in extension.glob("*.json"):
        json.loads(name.read_text())
    manifest = xml.etree.ElementTree.parse(room / "unpacked" / "extension.vsixmanifest").getroot()
    space = "{http://schemas.microsoft.com/developer/vsx-schema/2011}"
    identity = manifest.find(space + "Metadata/" + space + "Identity").attrib
    expect("identity", (identity["Id"], identity["Version"], identity["Publisher"]), (about["name"], about["version"], about["publisher"]))
    assets = [asset.attrib["Path"] for asset in manifest.iter(space + "Asset")]
    expect("assets", [path for path in assets if not (room / "unpacked" / path).is_file()], [])
    types = xml.etree.ElementTree.parse(room / "unpacked" / "[Content_Types].xml").getroot()
    known = {part.attrib.get("Extension") or part.attrib["PartName"] for part in types}
    files = [path for path in (room / "unpacked").rglob("*") if path.is_file() and path.name != "[Content_Types].xml"]
    expect("types", [str(path) for path in files if path.suffix not in known and "/" + str(path.relative_to(room / "unpacked")) not in known], [])


DEEPER = ["class A {", "  f(x : Int) : Int {", "if a then", "if a then 1", "  else", "while a loop {", "while a loop", "case x of", "  f(", "{ {"]
AS_DEEP = ["x <- 1;", "if a then 1 else 2 fi", "-- then", "class A { };", 'out_string("{");', "f(1, 2);", "case x of y : Int => 1; esac", "of_all <- 1;"]
LESS_DEEP = ["};", "  } fi", "fi", "else 2", "pool;", "esac", ")"]


def vscode_rules(room, words):
    """The files and commands in the manifest exist, the pattern of problems fits `check`, and lines are indented as by cool-format."""
    about, rules = (json.loads((HERE / "vscode" / name).read_text()) for name in ("package.json", "language-configuration.json"))
    more = about["contributes"]
    there = {it["command"] for it in more["commands"]}
    named = {it["command"] for its in more["menus"].values() for it in its} | set(re.findall(r"command:(cool\.\w+)", json.dumps(more["walkthroughs"])))
    source = (HERE / "vscode" / "extension.js").read_text()
    registered = set(re.findall(r"registerCommand\('([\w.]+)'", source))
    expect("commands", (sorted(there - registered), sorted(named - there)), ([], []))
    pattern = more["problemPatterns"][0]
    said = check(words.cool, [HERE.parent / "examples" / "mistakes.cl"])
    lines = ["%s:%d: %s: %s" % (path, *fault) for path, faults in said.items() for fault in faults]
    found = [re.search(pattern["regexp"], line) for line in lines]
    expect("problems", [(it[pattern["line"]], it[pattern["code"]]) for it in found], [("7", "E1"), ("8", "E18"), ("14", "E6")])
    more_, less = (re.compile(rules["indentationRules"][name]) for name in ("increaseIndentPattern", "decreaseIndentPattern"))
    expect("deeper", [line for line in DEEPER if not more_.search(line)], [])
    expect("as deep", [line for line in AS_DEEP if more_.search(line) or less.search(line)], [])
    expect("less deep", [line for line in LESS_DEEP if not less.search(line)], [])


def vscode_extension(room, words):
    """The extension of the package, with a stand-in of VS Code's interface."""
    if not shutil.which("node"):
        raise NotTried("node is not installed")
    (room / "m.cl").write_text(FAULTY)
    call = ["node", HERE / "tests" / "vscode.cjs", package(room), words.cool, room / "m.cl"]
    environment = {**os.environ, "COOL_EXPLAIN": explained_by(room), "COOL_EDITOR": editor()}
    said = subprocess.run(call, timeout=SECONDS, stdout=subprocess.PIPE, check=True, env=environment).stdout.decode().splitlines()
    expect("VS Code", said, ["1:23-1:24 E17 %s 0" % SHOWN, FACTS, PREMISE, "mend `1` for `true` quickfix true 1 1:34-1:38 1", "definition 0:6-0:10",
                             "references 0:6-0:10 4:17-4:21", "Main 4 0:0-3:1 s 7 t 7 main 5", "Late 4 4:0-4:24 m 7",
                             "completion Main", "highlights 4:6-4:10 2", "rename 4:6-4:10 Later", "refused: the name of a class",
                             "debug node editors/cool-dap true", "launch cool launch ${file} true",
                             "run run run $cool 1 E17", GREETED, "tasks run check 6", 'formatting 1:30-1:31 ""',
                             "signature f(a : Int) : Int a : Int 0", r'form "while ${1:test} loop {\n  $0;\n} pool"', "0 told; 0 problems"])
    return "with a stand-in of its interface, on node " + subprocess.run(["node", "--version"], stdout=subprocess.PIPE).stdout.decode().strip()


def vscode_by_modules(room, words):
    """The extension where there is no program and no Python, as on Windows: all is asked of its modules."""
    if not shutil.which("node"):
        raise NotTried("node is not installed")
    (room / "m.cl").write_text(FAULTY)
    (room / "bin").mkdir()
    (room / "bin" / "node").symlink_to(shutil.which("node"))
    environment = {"PATH": str(room / "bin"), "HOME": str(room), "TMPDIR": str(room)}
    call = [room / "bin" / "node", HERE / "tests" / "vscode.cjs", package(room), "", room / "m.cl"]
    said = subprocess.run(call, timeout=SECONDS, stdout=subprocess.PIPE, check=True, env=environment).stdout.decode().splitlines()
    expect("VS Code", [said[0], said[4], *said[14:16], said[-1]],
           ["1:23-1:24 E17 %s: expected Int, found Bool 0" % TOLD, "definition 0:6-0:10", "run run run $cool 1 E17", GREETED, "0 told; 0 problems"])


def vscode_debugging(room, words):
    """The adapter of the package, which has all that it needs."""
    if not shutil.which("node"):
        raise NotTried("node is not installed")
    extension = package(room)
    for program in words.cool, "module":
        client = DebugClient(program, command=["node", extension / "editors" / "cool-dap"])
        stop = client.launch(HERE.parent / "examples" / "average.cl", lines=[14], stopOnEntry=True)
        expect("stop", (stop["reason"], client.where(), client.at("continue")), ("entry", ("Main.main", 19), ("Numbers.average", 14, "breakpoint")))
        client.end()


def emacs_debugging(room, words):
    """dap-mode, a client of the protocol."""
    mode = ["emacs", "-q", "--batch", "--eval", "(progn (package-initialize) (require 'dap-mode))"]
    if not shutil.which("emacs") or not shutil.which("node") or subprocess.run(mode, stderr=subprocess.DEVNULL).returncode:
        raise NotTried("emacs, elpa-dap-mode or node is not installed")
    (room / "average.cl").write_text((HERE.parent / "examples" / "average.cl").read_text())
    call = ["emacs", "-q", "--batch", "-l", HERE / "tests" / "emacs-debug.el"]
    said, version = said_in(room, words, call, COOL_MODE=str(HERE / "emacs" / "cool-mode.el"), COOL_FILE=str(room / "average.cl"))
    expect("dap-mode", said, ["Main.main 19", "Main.main 20", "Numbers.add 9", "number = 8", "Main.main 22", "Main.main 21", "Numbers.add 9",
                              "Numbers.average 14", "count = 0", "Numbers.add 9", "breaks: (average.cl 2)", "Numbers.average 14", "Numbers.average 14",
                              "ended"])
    return version + " with dap-mode"


TESTS = [neovim, neovim_debugging, vim_make, vim_with_ale, emacs, emacs_debugging, vscode_package, vscode_rules,
         vscode_extension, vscode_by_modules, vscode_debugging]
