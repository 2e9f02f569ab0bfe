#!/usr/bin/env python3
"""Makes the page of its files: a folder that is served, and one file that opens without a server.

    web/bundle.py OUT WASM DAGRE    OUT/site and OUT/hpr.html, with this module and this dagre.min.js

Each module becomes a function that answers what it exports, so names of two modules can't meet. web/build calls this.
"""
import argparse
import base64
import json
import pathlib
import re
import shutil
import sys

WEB = pathlib.Path(__file__).resolve().parent
EXAMPLES = WEB.parent / "examples"
IMPORT = re.compile(r"^import (?:\{([^}]*)\}|\* as (\w+)) from '([^']+)';\n", re.M)
EXPORT = re.compile(r"^export (?:async )?(?:const|function|class) (\w+)", re.M)


def modules_from(path, seen):
    """The modules that a module needs, itself last; each once."""
    if path not in seen:
        seen[path] = None
        for _, _, name in IMPORT.findall(path.read_text()):
            modules_from((path.parent / name).resolve(), seen)
        seen[path] = seen.pop(path)
    return list(seen)


def as_function(path, text):
    """A module as a function that answers what it exports."""

    def brought(match):
        names, whole, name = match.groups()
        left = "{ " + ", ".join(it.strip() for it in names.split(",") if it.strip()) + " }" if names else whole
        return f"const {left} = modules[{json.dumps((path.parent / name).resolve().name)}];\n"

    exported = EXPORT.findall(text)
    body = re.sub(r"^export ", "", IMPORT.sub(brought, text), flags=re.M)
    return f"modules[{json.dumps(path.name)}] = (() => {{\n{body}return {{ {', '.join(exported)} }};\n}})();\n"


def bundled(entry, texts):
    """One script of a module and all that it needs."""
    return "'use strict';\nconst modules = {};\n" + "".join(as_function(it, texts.get(it, it.read_text())) for it in modules_from(entry, {}))


def examples_with_files(path):
    """The examples, with the texts of those that stand in folders."""

    def texts(match):
        folder = EXAMPLES / match[1]
        base, *variants = [json.dumps((folder / f"{it}.hpr").read_text()) for it in ("base", "a", "b")]
        return f"base: {base}, variants: [{', '.join(variants)}],"

    return re.sub(r"folder: '(\w+)',", texts, path.read_text())


def in_script(text):
    """A script's text, as it may stand in a page."""
    return text.replace("</script", "<\\/script")


def main():
    words = argparse.ArgumentParser(prog="web/bundle.py", description=__doc__, formatter_class=argparse.RawDescriptionHelpFormatter)
    words.add_argument("out", type=pathlib.Path)
    words.add_argument("wasm", type=pathlib.Path)
    words.add_argument("dagre", type=pathlib.Path)
    said = words.parse_args()
    page = WEB / "page"
    script = bundled(page / "page.mjs", {page / "examples.mjs": examples_with_files(page / "examples.mjs")})
    worker = said.dagre.read_text() + "\n" + bundled(page / "worker.mjs", {})
    index, style = (page / "index.html").read_text(), (page / "style.css").read_text()

    site = said.out / "site"
    shutil.rmtree(site, ignore_errors=True)
    site.mkdir(parents=True)
    served = index.replace('<script type="module" src="page.mjs"></script>', '<script src="page.js" defer></script>')
    for name, text in {"index.html": served, "style.css": style, "page.js": script, "worker.js": worker}.items():
        (site / name).write_text(text)
    shutil.copy(said.wasm, site / "hpr.wasm")

    policy = re.search(r'content="(default-src[^"]*)"', index)[1]
    closed = policy.replace("connect-src 'self'", "connect-src 'none'").replace("'self' ", "")
    whole = (
        index.replace(policy, closed)
        .replace('<link rel="stylesheet" href="style.css">', f"<style>\n{style}</style>")
        .replace(
            '<script type="module" src="page.mjs"></script>',
            f'<script type="text/plain" id="worker-text">{in_script(worker)}</script>\n'
            f'<script type="text/plain" id="module-text">{base64.b64encode(said.wasm.read_bytes()).decode()}</script>\n'
            f"<script>{in_script(script)}</script>",
        )
    )
    (said.out / "hpr.html").write_text(whole)
    return 0


if __name__ == "__main__":
    sys.exit(main())
