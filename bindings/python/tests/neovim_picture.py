"""Takes the picture of Neovim that the guide has: `python3 -m tests.neovim_picture FILE`. It needs tmux, nvim and chromium.

Neovim runs in a terminal of tmux, with the lines of the guide; what the terminal shows becomes a page, and Chromium takes
a screenshot of it.
"""

import html
import os
import re
import subprocess
import sys
import tempfile
import time
from pathlib import Path

from .chromium import Browser
from .in_chromium import ENGLISH, POLISH
from .in_neovim import lines_of_the_guide, with_server

COLUMNS, ROWS = 100, 16

COLOURS = """
vim.o.termguicolors, vim.o.number, vim.o.signcolumn, vim.o.laststatus, vim.o.hlsearch = true, true, "yes", 0, false
for name, look in pairs({
    Normal = { fg = "#e8ebf0", bg = "#1c2028" }, NormalFloat = { fg = "#e8ebf0", bg = "#2b3240" }, LineNr = { fg = "#77829a" },
    SignColumn = { bg = "#1c2028" }, EndOfBuffer = { fg = "#1c2028" }, DiagnosticError = { fg = "#ff9a90" },
    DiagnosticWarn = { fg = "#f5c26b" }, DiagnosticUnderlineError = { underline = true, sp = "#ff9a90" },
    DiagnosticUnderlineWarn = { underline = true, sp = "#f5c26b" }, Special = { fg = "#9dc1ff" }, MsgArea = { fg = "#1c2028" },
}) do
    vim.api.nvim_set_hl(0, name, look)
end
"""

STYLE = """
body { margin: 0; padding: 18px 22px; background: #1c2028; color: #e8ebf0; }
pre { margin: 0; font: 16px/1.45 "DejaVu Sans Mono", monospace; }
span { padding: .2em 0; }
"""


def shown(folder):
    """What the terminal shows, once the findings and the texts of a message are there."""
    tmux = ["tmux", "-f", "/dev/null", "-L", f"picture-{os.getpid()}"]
    home = {**with_server(folder), "HOME": str(folder), "TERM": "xterm-256color", "LC_ALL": "C.UTF-8"}
    words = ["new-session", "-d", "-x", str(COLUMNS), "-y", str(ROWS), "nvim -u init.lua -i NONE -n l10n/pl/main.ftl"]
    subprocess.run([*tmux, *words], cwd=folder, env={**os.environ, **home}, check=True)
    try:
        time.sleep(8)
        for keys in ("/unread", ":lua vim.lsp.buf.hover()"):
            subprocess.run([*tmux, "send-keys", keys, "Enter"], check=True)
            time.sleep(3)
        return subprocess.run([*tmux, "capture-pane", "-e", "-p"], capture_output=True, text=True, check=True).stdout
    finally:
        subprocess.run([*tmux, "kill-server"], check=True)


def page_of(text):
    """The text of a terminal, as a page."""
    looks, pieces = {}, []
    for piece in re.split(r"(\x1b\[[0-9;:]*m)", text):
        codes = re.fullmatch(r"\x1b\[([0-9;:]*)m", piece)
        if codes:
            looks = changed(looks, [int(code or 0) for code in re.split("[;:]", codes[1])])
        elif piece:
            style = "; ".join(f"{name}: {value}" for name, value in looks.items())
            pieces.append(f'<span style="{style}">{html.escape(piece)}</span>')
    return f'<!doctype html><meta charset="utf-8"><style>{STYLE}</style><pre>{"".join(pieces)}</pre>'


def changed(looks, codes):
    """The looks after some codes of a terminal."""
    looks = dict(looks)
    while codes:
        code = codes.pop(0)
        if code == 0:
            looks = {}
        elif code in (38, 48, 58) and codes[:1] == [2]:
            name = {38: "color", 48: "background", 58: "text-decoration-color"}[code]
            looks[name] = "rgb({}, {}, {})".format(*codes[1:4])
            codes = codes[4:]
        elif code == 4:
            looks["text-decoration"] = "underline wavy 1.5px"
        elif code == 1:
            looks["font-weight"] = "bold"
        elif code in (24, 39, 49, 59):
            name = {24: "text-decoration", 39: "color", 49: "background", 59: "text-decoration-color"}[code]
            looks.pop(name, None)
    return looks


def main():
    with tempfile.TemporaryDirectory() as made:
        folder = Path(made)
        sources = {"l10n/en-US/main.ftl": ENGLISH, "l10n/pl/main.ftl": POLISH}
        for name, text in {**sources, "init.lua": lines_of_the_guide() + COLOURS}.items():
            (folder / name).parent.mkdir(parents=True, exist_ok=True)
            (folder / name).write_text(text, encoding="utf-8")
        page = folder / "page.html"
        page.write_text(page_of(shown(folder)), encoding="utf-8")
        browser = Browser()
        browser.size(1024, 372)
        browser.go(page.as_uri())
        browser.picture(sys.argv[1])
        browser.close()


if __name__ == "__main__":
    main()
