#!/usr/bin/env python3
"""Checks in a browser that pages of tools/view are legible in windows of 420 to 1,920 pixels, light and dark.

In each window nothing reaches beyond its right edge, no text is smaller than 11 pixels, the text of the picture is told apart from its ground, the whole
run can be seen and its end reached, and lanes, findings and buttons have names for a screen reader and are reached by Tab. With --pictures FOLDER
each window is kept as a PNG. ./test looks at one width (views.py); this script is run by hand."""
from __future__ import annotations

import os
import pathlib
import sys
import tempfile
from collections.abc import Iterator

sys.dont_write_bytecode = True
sys.path[0] = str(pathlib.Path(__file__).resolve().parents[2])
from checks import common
from checks.common import DATA, TOP, Count, Word
from checks.program import browser, large, views
from checks.program.browser import Browser

WIDTHS, HIGH = (420, 700, 1366, 1920), 900
EXAMPLES = 10
DRAWN = 'new Promise(done => requestAnimationFrame(() => requestAnimationFrame(done)))'
# texts in view that end beyond the window, and those that are too small; tables and lists scroll by themselves
BEYOND = """[...document.querySelectorAll('header *, #bar *, #legend span, #top text, #main text, #blunt, #said')].filter(one => {
  const box = one.getBoundingClientRect();
  return box.width > 0 && box.right > innerWidth + 1 && !one.closest('[hidden]');
}).map(one => one.textContent).slice(0, 3)"""
SMALL = """[...document.querySelectorAll('body *')].filter(one => one.childNodes.length && [...one.childNodes].some(part => part.nodeType === 3 && part.data.trim())
  && !['SCRIPT', 'STYLE'].includes(one.tagName) && parseFloat(getComputedStyle(one).fontSize) < 11).map(one => one.textContent.trim()).slice(0, 3)"""
NAMELESS = """[...document.querySelectorAll('button, input, [role=button], [role=img], canvas')].filter(one => !one.closest('[hidden], dialog') && one.getBoundingClientRect().width
  && !(one.getAttribute('aria-label') || one.textContent.trim() || one.closest('label')?.textContent.trim() || one.placeholder)).map(one => one.outerHTML.slice(0, 80)).slice(0, 3)"""
UNREACHED = "[...document.querySelectorAll('.head, .finding')].filter(one => one.tabIndex < 0).length"
# how far the brightness of the letters is from that of the page
CONTRAST = """(() => {
  const bright = text => { const [r, g, b] = text.match(/[\\d.]+/g).map(Number); return (.2126 * r + .7152 * g + .0722 * b) / 255; };
  const ground = bright(getComputedStyle(document.body).backgroundColor), letters = bright(getComputedStyle(document.querySelector('#axis text')).fill);
  return Math.abs(ground - letters);
})()"""
END = """(() => { view.window(view.schedule.b - view.span / 8, view.schedule.b); view.show();
  return [view.hi === Math.max(view.schedule.b, view.schedule.a + 1), view.x(view.hi) <= innerWidth]; })()"""
WHOLE = "(() => { view.all(); view.show(); return view.lo === view.schedule.a && view.hi >= view.schedule.b && view.x(view.hi) <= innerWidth; })()"


def systems(folder: pathlib.Path) -> Iterator[tuple[pathlib.Path, int, list[str]]]:
    """Files, how far each is run, and more options: some in real units."""
    for place, file in enumerate(sorted((DATA / 'examples').glob('*.toml'))[:EXAMPLES]):
        yield file, 60, ['--tick-us', '10'] if place % 2 else []
    for name, text, horizon in (*large.systems(), ('packets.toml', views.PACKETS, 40)):
        file = folder / name
        file.write_text(text)
        yield file, horizon, []


def faults(page: Browser) -> list[str]:
    """What is wrong with a page in the window that it has."""
    found = [f'{what}: {said}' for what, script in (('beyond the window', BEYOND), ('smaller than 11 pixels', SMALL), ('without a name', NAMELESS)) if (said := page.value(script))]
    if page.value('document.documentElement.scrollWidth') > page.wide:
        found.append('the page is wider than the window')
    if page.value(UNREACHED):
        found.append('a lane or a finding is not reached by Tab')
    if page.value(CONTRAST) < 0.35:
        found.append('the letters are as bright as the page')
    if not page.value(WHOLE):
        found.append('the whole run is not seen')
    if page.value(END) != [True, True]:
        found.append('the end of the run is not reached')
    return found + page.faults()


def main() -> None:
    parser = common.asking_program(__doc__)
    parser.add_argument('--pictures', type=pathlib.Path, metavar='FOLDER', help='keeps what each window looks like')
    words = parser.parse_args()
    program, count = common.built_program(words.program), Count()
    if not browser.found():
        count.skip('pages in a browser, since no Chromium is installed')
        count.end()
    with tempfile.TemporaryDirectory() as folder:
        pages = []
        for file, horizon, more in systems(pathlib.Path(folder)):
            page = pathlib.Path(folder, f'{file.stem}.html')
            command: list[Word] = [sys.executable, TOP / 'tools' / 'view', file, '--horizon', str(horizon), *more, '-o', page]
            drawn = common.run(command, env={**os.environ, 'MCSIM': str(program), 'PYTHONDONTWRITEBYTECODE': '1'})
            count.expect(f'{file.name}: {drawn}', drawn == (0, b'', b''))
            pages.append(page)
        for wide in WIDTHS:
            for is_dark in (False, True):
                with Browser(wide, HIGH, is_dark) as shown:
                    for page in pages:
                        look(shown, page, is_dark, words.pictures, count)
    count.end()


def look(shown: Browser, page: pathlib.Path, is_dark: bool, pictures: pathlib.Path | None, count: Count) -> None:
    shown.open(page.as_uri())
    shown.value('ready')
    shown.value("findings.list.length ? findings.go(0) : view.schedule.slow.length && chainList.goSlow(0)")
    shown.value(DRAWN)
    window = f'{page.stem}-{shown.wide}-{"dark" if is_dark else "light"}'
    if pictures:
        pictures.mkdir(exist_ok=True)
        shown.picture(pictures / f'{window}.png')
    found = faults(shown)
    count.expect(f'{window}: {found}', not found)


if __name__ == '__main__':
    main()
