#!/usr/bin/env python3
"""Makes the pages that are printed from the sources, as HTML with links and a search, in build/pages.

    tools/pages.py            makes them: open build/pages/index.html
    tools/pages.py --check    whether they can be made, and whether all that they name is there: each definition has a sentence,
                              each sentence a definition, `hidewillow` passes on what the contracts behind it cite, and the list
                              in docs/HEADLINE.md is that of the sources; the last line is 'N passed, M failed'

- API: the public items with their contracts, and the words that these cite
- DEFINITIONS: crate by crate the definitions that contracts of public functions cite, each with what it says
- BELIEVE: the text of the definitions that the clauses of `Kernel` come to, in the order in which they are read
"""
import html
import re
import sys
sys.dont_write_bytecode = True
import api
import definitions
import reading
from sources import Index, ROOT

FOLDER = ROOT / "build/pages"
STYLE = """body{font:15px/1.45 system-ui,sans-serif;max-width:75em;margin:1em auto;padding:0 1em;color:#222}
pre{background:#f6f6f4;padding:.6em;overflow-x:auto}table{border-collapse:collapse}td,th{border:1px solid #ddd;padding:.2em .5em;
text-align:left;vertical-align:top}input{width:100%;padding:.5em;font:inherit;position:sticky;top:0}.no{display:none}"""
# Shows the rows and items that have all words of what is asked.
SEARCH = """const ask=document.querySelector('input');ask.oninput=()=>{const words=ask.value.toLowerCase().split(/\\s+/).filter(Boolean);
for(const it of document.querySelectorAll('tbody tr, .item')){const text=it.textContent.toLowerCase();
it.classList.toggle('no',!words.every(word=>text.includes(word)))}};"""


def inline(text, links):
    """A line of Markdown: code, links, bold; a word of code that is defined leads to its definition."""
    parts = re.split(r"(`[^`]*`)", text)
    for at, part in enumerate(parts):
        if part.startswith("`"):
            word = part[1:-1]
            code = f"<code>{html.escape(word)}</code>"
            parts[at] = f'<a href="{links[word]}">{code}</a>' if word in links else code
        else:
            part = html.escape(part, quote=False).replace("&amp;#124;", "|")
            part = re.sub(r"\[([^\]]*)\]\(([\w.]+)\.md\)", lambda it: f'<a href="{target(it[2])}">{it[1]}</a>', part)
            part = re.sub(r"\[([^\]]*)\]\(([^)]*)\)", lambda it: f'<a href="{from_docs(it[2])}">{it[1]}</a>', part)
            parts[at] = re.sub(r"\*\*(.+?)\*\*", r"<b>\1</b>", part)
    return "".join(parts).replace("</code></a>](", "</code></a> (")


def target(page):
    return f"{page}.html" if page in ("API", "DEFINITIONS", "BELIEVE") else f"../../docs/{page}.md"


def from_docs(path):
    return path if "://" in path or path.startswith("#") else f"../../docs/{path}"


def table(rows, links):
    """A table of Markdown, its second row left out; a row of a definition has its name as an anchor."""
    cells = [[it.strip() for it in row.strip("|").split(" | ")] for row in rows]
    out = ["<table><thead><tr>" + "".join(f"<th>{inline(it, {})}</th>" for it in cells[0]) + "</tr></thead><tbody>"]
    for row in cells[2:]:
        name = row[0].strip("` ")
        out.append(f'<tr id="{html.escape(name)}">' + "".join(f"<td>{inline(it, links)}</td>" for it in row) + "</tr>")
    return out + ["</tbody></table>"]


def blocks(text):
    """The blocks of a page: fences whole, all else by empty lines."""
    fence, block = False, []
    for line in text.split("\n"):
        if line.startswith("```"):
            fence = not fence
        if line or fence:
            block.append(line)
        elif block:
            yield block
            block = []
    if block:
        yield block


def code(lines, links):
    """A fence: each word that is defined leads to its definition."""
    def linked(match):
        return f'<a href="{links[match[0]]}">{match[0]}</a>' if match[0] in links else match[0]
    return "<pre>" + re.sub(r"[A-Za-z_][\w']*", linked, html.escape("\n".join(lines), quote=False)) + "</pre>"


def shown(block, links):
    """A block of Markdown as HTML."""
    head = re.match(r"(#+) (.*)", block[0])
    if head:
        level = len(head[1])
        return [f"<h{level}>{inline(head[2], {})}</h{level}>"] + (shown(block[1:], links) if block[1:] else [])
    if block[0].startswith("```"):
        end = block.index("```", 1) if "```" in block[1:] else len(block)
        words = " ".join(block[end + 1:])
        return ['<div class="item">' + code(block[1:end], links) + (f"<p>{inline(words, links)}</p>" if words else "") + "</div>"]
    if block[0].startswith("|"):
        return table(block, links)
    if block[0].startswith("- "):
        points = re.split(r"(?:^| )- (?=\S)", " ".join(block))[1:]
        return ["<ul>"] + [f"<li>{inline(it, links)}</li>" for it in points] + ["</ul>"]
    return [f"<p>{inline(' '.join(block), links)}</p>"]


def whole(name, text, links):
    body = "\n".join(line for block in blocks(text) for line in shown(block, links))
    menu = " · ".join(f'<a href="{it}.html">{it}</a>' for it in ("index", "API", "DEFINITIONS", "BELIEVE"))
    return (f'<!doctype html><meta charset="utf-8"><title>{name}</title><style>{STYLE}</style>\n<p>{menu}</p>'
            f'<input placeholder="search: words, all of which are to stand in a row or an item">\n{body}\n<script>{SEARCH}</script>\n')


def made(index):
    """The pages by name, and what is wrong with what they name."""
    its = definitions.cited(index)
    calls, cited = api.page(index)
    found = reading.reached(index)
    pages = {"API": calls, "DEFINITIONS": definitions.page(its), "BELIEVE": reading.believe(found, index)}
    wrong = {"API": list(api.faults(index, cited)), "DEFINITIONS": list(definitions.faults(index, its)),
             "HEADLINE": list(reading.faults(found, index))}
    links = {it.name: f"DEFINITIONS.html#{html.escape(it.name)}" for it in its}
    return pages, wrong, links


def write(pages, links):
    FOLDER.mkdir(parents=True, exist_ok=True)
    front = __doc__.split("\n\n")[-1].strip()
    front = re.sub(r"- (\w+): ", r"- [\1](\1.md): ", front)
    for name, text in (pages | {"index": "# Pages made from the sources\n\n" + front}).items():
        (FOLDER / f"{name}.html").write_text(whole(name, text, links))
    print(f"{FOLDER.relative_to(ROOT)}/index.html")


def main():
    pages, wrong, links = made(Index())
    if sys.argv[1:] != ["--check"]:
        write(pages, links)
        return 0
    for name, text in pages.items():
        whole(name, text, links)
    faults = [it for its in wrong.values() for it in its]
    print("\n".join(faults))
    print(f"{sum(not its for its in wrong.values())} passed, {sum(bool(its) for its in wrong.values())} failed")
    return int(bool(faults))


if __name__ == "__main__":
    sys.exit(main())
