"""Tests the manifest of the VS Code package: each of its keys is one that VS Code has (code.visualstudio.com/api/references), with a value of its form."""
import json
import re

from .client import HERE, expect

TEXT, FLAG, ANY = str, bool, object
NAME = re.compile(r"[a-z0-9][a-z0-9-]*")
CATEGORIES = {"AI", "Azure", "Chat", "Data Science", "Debuggers", "Extension Packs", "Education", "Formatters", "Keymaps", "Language Packs", "Linters",
              "Machine Learning", "Notebooks", "Programming Languages", "SCM Providers", "Snippets", "Testing", "Themes", "Visualization", "Other"}
MOST_KEYWORDS = 30
COMMAND = {"command!": TEXT, "title!": TEXT, "category": TEXT, "icon": ANY, "enablement": TEXT}
MENU_ITEM = {"command!": TEXT, "when": TEXT, "group": TEXT}
STEP = {"id!": TEXT, "title!": TEXT, "description!": TEXT, "media!": {"markdown": TEXT, "image": ANY, "altText": TEXT, "svg": TEXT},
        "completionEvents": [TEXT], "when": TEXT}
SETTING = {"type!": ANY, "default": ANY, "scope": TEXT, "description": TEXT, "markdownDescription": TEXT, "enum": [TEXT], "order": int}
LANGUAGE = {"id!": TEXT, "aliases": [TEXT], "extensions": [TEXT], "filenames": [TEXT], "firstLine": TEXT, "configuration": TEXT,
            "icon": {"light!": TEXT, "dark!": TEXT}}
DEBUGGER = {"type!": TEXT, "label": TEXT, "languages": [TEXT], "program": TEXT, "runtime": TEXT, "configurationAttributes": ANY,
            "initialConfigurations": [ANY], "configurationSnippets": [{"label!": TEXT, "description": TEXT, "body!": ANY}]}
MATCHER = {"name!": TEXT, "label": TEXT, "owner": TEXT, "source": TEXT, "severity": TEXT, "applyTo": TEXT, "fileLocation": ANY, "pattern!": ANY,
           "background": ANY}
PATTERN = {"name!": TEXT, "regexp!": TEXT, **{key: int for key in ("file", "line", "column", "endLine", "endColumn", "code", "severity", "message")}}
CONTRIBUTES = {
    "languages": [LANGUAGE], "grammars": [{"language": TEXT, "scopeName!": TEXT, "path!": TEXT}], "snippets": [{"language!": TEXT, "path!": TEXT}],
    "commands": [COMMAND], "menus": {"editor/title/run": [MENU_ITEM], "commandPalette": [MENU_ITEM]},
    "taskDefinitions": [{"type!": TEXT, "required": [TEXT], "properties": ANY, "when": TEXT}], "problemPatterns": [PATTERN],
    "problemMatchers": [MATCHER], "breakpoints": [{"language!": TEXT}], "debuggers": [DEBUGGER],
    "walkthroughs": [{"id!": TEXT, "title!": TEXT, "description!": TEXT, "steps!": [STEP], "when": TEXT, "featuredFor": [TEXT]}],
    "configuration": {"title": TEXT, "properties!": ANY},
}
FORM = {
    "name!": TEXT, "version!": TEXT, "publisher!": TEXT, "engines!": {"vscode!": TEXT}, "displayName": TEXT, "description": TEXT, "categories": [TEXT],
    "keywords": [TEXT], "icon": TEXT, "galleryBanner": {"color": TEXT, "theme": TEXT}, "pricing": TEXT, "main": TEXT, "activationEvents": [TEXT],
    "capabilities": {"untrustedWorkspaces": ANY, "virtualWorkspaces": ANY}, "contributes": CONTRIBUTES, "license": TEXT, "repository": ANY,
}
LANGUAGE_RULES = {
    "comments": {"lineComment": ANY, "blockComment": [TEXT]}, "brackets": [[TEXT]], "autoCloseBefore": TEXT, "surroundingPairs": [[TEXT]],
    "autoClosingPairs": [{"open!": TEXT, "close!": TEXT, "notIn": [TEXT]}], "wordPattern": TEXT, "folding": {"markers": {"start!": TEXT, "end!": TEXT}},
    "indentationRules": {"increaseIndentPattern!": TEXT, "decreaseIndentPattern!": TEXT},
    "onEnterRules": [{"beforeText!": TEXT, "afterText": TEXT, "previousLineText": TEXT, "action!": {"indent!": TEXT, "appendText": TEXT}}],
}


def faults(value, form, path="manifest"):
    """The parts of a value that do not have the form: a type, [form] for a list, or keys with forms. A key with `!` is required."""
    if isinstance(form, list):
        if not isinstance(value, list):
            return [path + " is no list"]
        return [it for i, part in enumerate(value) for it in faults(part, form[0], "%s[%d]" % (path, i))]
    if not isinstance(form, dict):
        return [] if isinstance(value, form) else ["%s is no %s" % (path, form.__name__)]
    if not isinstance(value, dict):
        return [path + " is no table"]
    known = {key.rstrip("!"): part for key, part in form.items()}
    found = ["%s lacks %s" % (path, key[:-1]) for key in form if key.endswith("!") and key[:-1] not in value]
    found += ["%s has %s, which VS Code does not know" % (path, key) for key in value if key not in known]
    return found + [it for key, part in value.items() if key in known for it in faults(part, known[key], "%s.%s" % (path, key))]


def more_faults(about):
    """Errors besides the forms: names, numbers, and limits of the marketplace."""
    settings = about["contributes"]["configuration"]["properties"]
    wrong = {
        "name": not NAME.fullmatch(about["name"]), "version": not re.fullmatch(r"\d+\.\d+\.\d+", about["version"]),
        "engines": not re.fullmatch(r"\^?\d+\.\d+\.\d+", about["engines"]["vscode"]), "categories": not set(about["categories"]) <= CATEGORIES,
        "keywords": len(about["keywords"]) > MOST_KEYWORDS, "pricing": about["pricing"] not in ("Free", "Trial"),
        "settings": not all(name.startswith("cool.") for name in settings),
        "activation": not all(re.fullmatch(r"on[A-Z]\w*:\w+", it) for it in about["activationEvents"]),
        "icon of 128 points": icon_size(HERE / "vscode" / about["icon"]) < (128, 128),
    }
    return [name for name, is_wrong in wrong.items() if is_wrong] + [it for value in settings.values() for it in faults(value, SETTING, "setting")]


def icon_size(path):
    data = path.read_bytes()
    return int.from_bytes(data[16:20], "big"), int.from_bytes(data[20:24], "big")


def vscode_manifest(room, words):
    """Each key is one that VS Code has, and a wrong one is found."""
    about = json.loads((HERE / "vscode" / "package.json").read_text())
    expect("manifest", faults(about, FORM) + more_faults(about), [])
    expect("language", faults(json.loads((HERE / "vscode" / "language-configuration.json").read_text()), LANGUAGE_RULES, "language"), [])
    snippet = {"prefix!": TEXT, "body!": [TEXT], "description": TEXT, "scope": TEXT}
    snippets = json.loads((HERE / "vscode" / "snippets.json").read_text())
    expect("snippets", [it for name, value in snippets.items() for it in faults(value, snippet, name)], [])
    wrong = {**about, "color": "red", "keywords": "cool", "contributes": {**about["contributes"], "commands": [{"command": "cool.run"}]}}
    expect("wrong ones", faults(wrong, FORM), ["manifest has color, which VS Code does not know", "manifest.keywords is no list",
                                               "manifest.contributes.commands[0] lacks title"])


TESTS = [vscode_manifest]
