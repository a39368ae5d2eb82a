#!/usr/bin/env python3
"""Turns the documents of a folder, as install.sh puts them there, into HTML as well: beside each NAME.md stands NAME.html, and its links go
to such pages.

usage: documents.py FOLDER

It needs python3-markdown. Links to what isn't in the folder leave their words. It ends with 0, with 64 for wrong use, 66 where the folder can't be read."""
import html
import re
import sys
from pathlib import Path

PAGE = """<!DOCTYPE html>
<html lang="en"><head><meta charset="utf-8"><meta name="viewport" content="width=device-width"><title>{title}</title>
<style>body {{ font: 1em/1.45 sans-serif; max-width: 52em; margin: 2em auto; padding: 0 1em }}
table {{ border-collapse: collapse }} td, th {{ border: 1px solid #bbb; padding: .2em .5em; text-align: left; vertical-align: top }}
pre {{ background: #f4f4f4; padding: .6em; overflow-x: auto }} img {{ max-width: 100% }}</style></head><body>
{body}
</body></html>
"""


def anchor(heading: str, _separator: str) -> str:
    "the name of a heading, as links in the documents have it"
    return re.sub(r"[^\w\- ]", "", heading.lower()).replace(" ", "-")


def link(target: str) -> str:
    "where a link leads among the installed documents: all of them stand in one folder, with examples/ beside them"
    if re.match(r"[a-z]+:", target):
        return target
    target = re.sub(r"^(?:\.\./)?(?:docs/)?(?=[\w.-]+\.(?:md|svg|png|json)\b)", "", target) if "examples" not in target else target.replace("../", "")
    return re.sub(r"\.md(?=#|$)", ".html", target)


def page_of(text: str, place: Path) -> str:
    "the page of a document; a link to a file that isn't installed, as to a source, leaves its words"
    from markdown import markdown
    body = markdown(text, extensions=["tables", "fenced_code", "toc", "sane_lists"], extension_configs={"toc": {"slugify": anchor}}, output_format="html")
    body = re.sub(r'(?<= )(href|src)="([^"]+)"', lambda found: f'{found[1]}="{link(found[2])}"', body)
    def is_there(target: str) -> bool:
        path = place.parent / target.split("#")[0]
        return bool(re.match(r"[a-z]+:|#", target)) or path.exists() or path.suffix == ".html" and path.with_suffix(".md").exists()

    body = re.sub(r'<a href="([^"]+)">(.*?)</a>', lambda found: found[0] if is_there(found[1]) else found[2], body, flags=re.S)
    heading = re.search(r"^# (.+)$", text, re.M)
    return PAGE.format(title=html.escape(heading[1] if heading else place.stem), body=body)


def main(words: list[str]) -> int:
    "the command; its status"
    if words[:1] in (["-h"], ["--help"]):
        print(__doc__)
        return 0
    if len(words) != 1:
        print("usage: documents.py FOLDER", file=sys.stderr)
        return 64
    folder = Path(words[0])
    if not folder.is_dir():
        print(f"documents.py: there is no folder {folder}", file=sys.stderr)
        return 66
    for path in sorted(folder.rglob("*.md")):
        path.with_suffix(".html").write_text(page_of(path.read_text(encoding="utf-8"), path), encoding="utf-8")
    return 0


if __name__ == "__main__":
    sys.exit(main(sys.argv[1:]))
