"""Puts the page together: one file of HTML, style, scripts and data, with a Content-Security-Policy that names them by hashes."""

import base64
import hashlib
import json
import re
from html import escape

from . import core

ROOT = core.ROOT
FOLDER = ROOT / "web/page"
PAGE = ROOT / "web/wuzhikar.html"
LIMIT = 360_000
FIRST = "app.js"
BUILT = "built.js"
IMPORT = re.compile(r'^import \{([^}]*)\} from "\./([a-z_]+\.js)";\n', re.M)
EXPORT = re.compile(r"^export (?:async )?(?:const|function|class) ([A-Za-z_$][\w$]*)", re.M)
# Comments that take whole lines: who reads the modules reads them in web/page.
COMMENT = re.compile(r"^[ \t]*(?:/\*\*(?:(?!\*/).)*\*/[ \t]*|//[^\n]*)\n", re.M | re.S)
MODULE = re.compile(r'const wasm = "([A-Za-z0-9+/=]*)";')


class Wrong(Exception):
    """A sentence about what is wrong."""


def examples():
    """The example scripts, with the lists of slots of the images that they start on; the shortest first."""
    found = {}
    for script in sorted((ROOT / "examples").glob("*.kbs")):
        slots = script.with_suffix(".slots")
        found[script.stem] = {"text": script.read_text(), **({"slots": slots.read_text()} if slots.exists() else {})}
    return dict(sorted(found.items(), key=lambda item: (item[0] != "stored_key", item[0])))


def built(wasm):
    """The module of what is no JavaScript: the WebAssembly module, usage names, examples, and a descriptor to begin with."""
    hexes = (ROOT / "examples/media_keys.hex").read_text()
    return (f'const wasm = "{base64.b64encode(wasm).decode()}";\n'
            "export const coreBytes = Uint8Array.from(atob(wasm), (letter) => letter.charCodeAt(0));\n"
            f"export const usageTable = {json.dumps((ROOT / 'rust/wuzhikar-hid/src/usages.txt').read_text(), ensure_ascii=False)};\n"
            f"export const mediaKeys = {json.dumps(hexes)};\n"
            f"export const examples = {json.dumps(examples(), ensure_ascii=False)};\n")


class Bundle:
    """Modules one after the other, each as a function whose value is what it exports; those that it needs stand before it."""

    def __init__(self, wasm):
        self.wasm, self.parts, self.exported = wasm, [], {}

    def add(self, name, path=()):
        """Adds a module and those that it needs."""
        if name in path:
            raise Wrong(f"web/page/{name}: imports itself by {' '.join(path)}")
        if name in self.exported:
            return
        text = built(self.wasm) if name == BUILT else COMMENT.sub("", (FOLDER / name).read_text())
        for wanted, needed in IMPORT.findall(text):
            self.add(needed, (*path, name))
            unknown = {word.strip() for word in wanted.split(",") if word.strip()} - self.exported[needed]
            if unknown:
                raise Wrong(f"web/page/{name}: {needed} does not export {', '.join(sorted(unknown))}")
        body = IMPORT.sub(lambda found: f'const {{{found[1]}}} = modules["{found[2]}"];\n', text)
        names = EXPORT.findall(body)
        body = re.sub(r"^export ", "", body, flags=re.M)
        if re.search(r"^(import|export)\b", body, re.M):
            raise Wrong(f"web/page/{name}: an import or export of another form")
        self.exported[name] = set(names)
        self.parts.append(f'modules["{name}"] = (() => {{\n{body}return {{ {", ".join(names)} }};\n}})();\n')


def digest(text):
    """A text's source expression in a Content-Security-Policy (CSP level 3, section 2.3.1)."""
    return f"'sha256-{base64.b64encode(hashlib.sha256(text.encode()).digest()).decode()}'"


def page(wasm, after=""):
    """The text of the page. `after` is run at its end: tests look at its modules so."""
    bundle = Bundle(wasm)
    bundle.add(FIRST)
    unused = {file.name for file in FOLDER.glob("*.js")} - bundle.exported.keys()
    if unused:
        raise Wrong(f"web/page: nothing imports {', '.join(sorted(unused))}")
    script = '"use strict";\nconst modules = {};\n' + "".join(bundle.parts) + after
    style = (FOLDER / "style.css").read_text()
    if re.search(r"</(script|style)", script + style, re.I):
        raise Wrong("web/page: a script or style ends itself")
    policy = (f"default-src 'none'; script-src {digest(script)} 'wasm-unsafe-eval'; style-src {digest(style)}; "
              "connect-src 'none'; img-src data:; base-uri 'none'; form-action 'none'")
    html = (FOLDER / "index.html").read_text()
    licence = escape((ROOT / "LICENSE-MIT").read_text().strip())
    for mark, text in {"%LICENCE%": licence, "%POLICY%": policy, "%STYLE%": style, "%SCRIPT%": script}.items():
        if html.count(mark) != 1:
            raise Wrong(f"web/page/index.html: {mark} does not stand there once")
        html = html.replace(mark, text)
    return html


def module_of(html):
    """The WebAssembly module that stands in a page."""
    found = MODULE.search(html)
    if not found:
        raise Wrong(f"{PAGE.relative_to(ROOT)} holds no WebAssembly module: bin/build-page --core builds it")
    return base64.b64decode(found[1])


def build(make):
    """Writes the page, with a module that `make` builds, or with the one of the page that is there."""
    if make:
        wasm, made_by, names = make()
        core.SOURCES.write_text(core.sources_text(wasm, made_by, names))
    else:
        wasm = module_of(PAGE.read_text())
    html = page(wasm)
    PAGE.write_text(html)
    print(f"{PAGE.relative_to(ROOT)}: {len(html.encode())} bytes, {len(wasm)} of them WebAssembly")


def check_core():
    """Builds the module anew and compares it, where the tools are those that made it: a sentence, or `Wrong`."""
    if not core.recorded_tools():
        raise Wrong("web/SOURCES names no tools: run bin/build-page --core, and commit web/wuzhikar.html and web/SOURCES")
    if core.lacks():
        return f"skipped: the core is not built anew ({core.lacks()})"
    if core.tools() != core.recorded_tools():
        return f"skipped: the core is not compared with one that is built here (it was made by {core.recorded_tools()}, and here are {core.tools()})"
    if hashlib.sha256(core.build()[0]).hexdigest() != core.recorded()[0]:
        raise Wrong("the WebAssembly module is not what its sources give: run bin/build-page --core, and commit web/wuzhikar.html and web/SOURCES")
    return "the WebAssembly module is what its sources give, byte by byte"


def check():
    """Compares the page with its sources: a sentence, or `Wrong`."""
    remedy = "run bin/build-page, and commit web/wuzhikar.html and web/SOURCES"
    if not PAGE.exists():
        raise Wrong(f"web/wuzhikar.html is not there: {remedy}")
    stale = core.changed()
    if stale:
        raise Wrong(f"the WebAssembly module was made from another {', '.join(stale[:3])}{' ..' if stale[3:] else ''}: {remedy}")
    html = PAGE.read_text()
    wasm = module_of(html)
    if hashlib.sha256(wasm).hexdigest() != core.recorded()[0]:
        raise Wrong(f"the WebAssembly module is not the one of web/SOURCES: {remedy}")
    if page(wasm) != html:
        raise Wrong(f"web/wuzhikar.html is not what web/page, the names of usages and examples/ give: {remedy}")
    size = len(html.encode())
    if size > LIMIT:
        raise Wrong(f"web/wuzhikar.html has {size} bytes, over {LIMIT}")
    return f"web/wuzhikar.html is that of its sources, {size} bytes"
