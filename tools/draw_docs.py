#!/usr/bin/env python3
"""Draws the pictures of docs/ anew: the example block filled by the program and by its deck, the deck's page in a browser, and the block with map,
fill and markers in KLayout's window.

usage: tools/draw_docs.py [PROGRAM]     (by default bin/densfill, else what the gate left in crates/densfill/out; needs chromium, klayout
                                         and xvfb)
"""
import os
import shutil
import subprocess
import sys
import tempfile
from collections.abc import Iterator
from contextlib import contextmanager
from pathlib import Path

from built import ROOT, built
from draw_block import picture

DOCS, DECK = ROOT / "docs", ROOT / "deck/densfill-deck"
BLOCK = (Path("examples/block.toml"), Path("examples/block.gds"))

# Runs before KLayout opens files: its dialog with a tip is answered.
ANSWER = """
import pya
def answer():
    dialog = pya.QApplication.activeModalWidget
    dialog = dialog() if callable(dialog) else dialog
    if dialog and dialog.windowTitle == "Tip":
        dialog.accept()
timer = pya.QTimer()
timer.interval = 100
timer.timeout = answer
timer.start()
"""

# Fills the layer of the metal by the macro's entry in the menu, selects all markers in their browser, and saves what the display shows.
SHOW = """
import os
import traceback
import pya
COLOURS = {(31, 0): 0x2B5F8A, (31, 5): 0x4B8B3B, (40, 0): 0xB04A5A, (31, 1): 0xA06000}
window = pya.Application.instance().main_window()
pya.FileDialog.ask_open_file_name = staticmethod(lambda *words: deck)

def settle():
    for _ in range(30):
        pya.Application.instance().process_events()

def layers(view):
    at = view.begin_layers()
    while not at.at_end():
        yield at, (at.current().source_layer, at.current().source_datatype)
        at.next()

def trigger(name):
    window.menu().action(name).trigger()
    settle()

def fill(view):
    view.current_layer = next(at.dup() for at, on in layers(view) if on == (31, 0))
    settle()
    trigger("tools_menu.densfill_fill")
    for at, on in layers(view):
        shown = at.current().dup()
        shown.fill_color = shown.frame_color = COLOURS[on]
        view.set_layer_properties(at, shown)

def select_markers():
    trigger("tools_menu.browse_markers")
    browser = next(one for one in pya.QApplication.topLevelWidgets() if one.isVisible() and "Marker" in one.windowTitle)
    browser.setGeometry(0, 82, 440, 560)
    for name in ("directory_tree", "markers_list"):
        getattr(browser.browser_frame, name).selectAll()
        settle()

try:
    window.setGeometry(0, 0, 1400, 680)
    window.load_layout(design, 1)
    view = window.current_view()
    view.max_hier()
    for name in ("hierarchy_panel", "libraries_view"):
        trigger("view_menu.show_" + name)
    fill(view)
    select_markers()
    view.zoom_box(pya.DBox(-27, -1, 49, 37))
    settle()
    pya.QApplication.primaryScreen().grabWindow(0).copy(0, 0, 1400, 680).save(picture)
    pya.Application.instance().exit(0)
except Exception:
    traceback.print_exc()
    os._exit(3)   # before KLayout shows a dialog that waits for a hand
"""


def run(*words: object) -> None:
    subprocess.run([str(word) for word in words], cwd=ROOT, check=True, stdout=subprocess.DEVNULL)


def draw_block(program: Path, folder: Path) -> None:
    """The block filled once, and in the deck's passes."""
    rules, out = ROOT / "examples/block_rules.csv", folder / "fill.gds"
    report = subprocess.run([program, "fill", rules, ROOT / BLOCK[1], os.devnull, out], check=True, capture_output=True, text=True).stdout
    (DOCS / "block.svg").write_text(picture(out.read_bytes(), report))
    results = folder / "results"
    run(DECK, "run", *BLOCK, "--out", results, "--program", program, "--quiet")
    (DOCS / "block-passes.svg").write_text(picture((results / "M1.fill.gds").read_bytes(), (results / "M1.report.csv").read_text()))


def draw_page(folder: Path) -> None:
    """The page that the deck left, with paths as they are given in the document."""
    page = folder / "page.html"
    page.write_text((folder / "results/report.html").read_text().replace(f"{ROOT}/", ""))
    run("chromium", "--headless", "--no-sandbox", "--disable-gpu", "--hide-scrollbars", f"--user-data-dir={folder}/profile", "--window-size=1000,1100",
        f"--screenshot={DOCS / 'deck-page.png'}", page)


@contextmanager
def display() -> Iterator[str]:
    """A display that no one sees."""
    words = ["Xvfb", "-displayfd", "1", "-screen", "0", "1400x680x24"]
    with subprocess.Popen(words, stdout=subprocess.PIPE, stderr=subprocess.DEVNULL, text=True) as child:
        assert child.stdout
        try:
            yield f":{child.stdout.readline().strip()}"
        finally:
            child.terminate()


def draw_klayout(program: Path, folder: Path) -> None:
    """The block in KLayout's window, with the macro where a user puts it."""
    (folder / "home/pymacros").mkdir(parents=True)
    shutil.copy(ROOT / "deck/klayout/densfill.lym", folder / "home/pymacros")
    for name, text in (("answer.py", ANSWER), ("show.py", SHOW)):
        (folder / name).write_text(text)
    given = {"design": ROOT / BLOCK[1], "deck": ROOT / BLOCK[0], "picture": DOCS / "deck-klayout.png"}
    words = ["klayout", "-nc", "-rm", str(folder / "answer.py"), "-r", str(folder / "show.py")]
    words += [word for key, value in given.items() for word in ("-rd", f"{key}={value}")]
    with display() as shown:
        env = os.environ | {"DISPLAY": shown, "KLAYOUT_HOME": str(folder / "home"), "DENSFILL": str(program), "DENSFILL_DECK": str(DECK)}
        subprocess.run(words, check=True, env=env, stdin=subprocess.DEVNULL, timeout=300)


def main() -> None:
    program = Path(sys.argv[1]) if sys.argv[1:] else built()
    if program is None:
        sys.exit("no program is built: make build")
    with tempfile.TemporaryDirectory() as path:
        draw_block(program.resolve(), Path(path))
        draw_page(Path(path))
        draw_klayout(program.resolve(), Path(path))


if __name__ == "__main__":
    main()
