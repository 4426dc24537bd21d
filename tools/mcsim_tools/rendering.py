"""A picture as a PNG or a PDF, which a browser of this machine makes of it."""
from __future__ import annotations

import os
import pathlib
import re
import shutil
import subprocess
import tempfile
from typing import Optional

from .faults import Fault, first_line, why

BROWSERS = ('chromium', 'chromium-browser', 'google-chrome', 'google-chrome-stable')
OPTIONS = ('--headless', '--disable-gpu', '--hide-scrollbars', '--no-first-run', '--disable-background-networking', '--force-device-scale-factor=2', '--no-pdf-header-footer')
# seconds that the browser may take
LIMIT = 120
KINDS = {'.png': '--screenshot', '.pdf': '--print-to-pdf'}
SIZE = re.compile(r'<svg [^>]*\bwidth="([\d.]+)" height="([\d.]+)"')


def browser() -> Optional[str]:
    return next(filter(None, map(shutil.which, BROWSERS)), None)


def page_of(svg: str, wide: int, high: int) -> str:
    """A page that is as large as the picture, on one sheet."""
    style = f'@page{{size:{wide}px {high}px;margin:0}}body{{margin:0;print-color-adjust:exact;-webkit-print-color-adjust:exact}}svg{{display:block}}'
    return f'<!doctype html><html><head><meta charset="utf-8"><style>{style}</style></head><body>{svg}</body></html>'


def rendered(svg: str, target: pathlib.Path) -> bytes:
    """Returns the picture in the form that the ending of the target names."""
    program = browser()
    if program is None:
        raise Fault(f'{target}: a browser draws it, and none was found ({", ".join(BROWSERS)}); a .svg needs none')
    size = SIZE.search(svg)
    assert size is not None
    wide, high = (int(float(length)) + 1 for length in size.groups())
    with tempfile.TemporaryDirectory(ignore_cleanup_errors=True) as folder:
        page, made = pathlib.Path(folder, 'page.html'), pathlib.Path(folder, f'made{target.suffix}')
        page.write_text(page_of(svg, wide, high), encoding='utf-8')
        # the superuser has no sandbox
        alone = ['--no-sandbox'] if os.geteuid() == 0 else []
        command = [program, *OPTIONS, *alone, f'--user-data-dir={folder}/user', f'--window-size={wide},{high}', f'{KINDS[target.suffix]}={made}', page.as_uri()]
        return result_of(command, made, target)


def result_of(command: list[str], made: pathlib.Path, target: pathlib.Path) -> bytes:
    try:
        ended = subprocess.run(command, stdin=subprocess.DEVNULL, capture_output=True, timeout=LIMIT, check=False)
    except subprocess.TimeoutExpired:
        raise Fault(f'{target}: {command[0]} took longer than {LIMIT} s') from None
    except OSError as error:
        raise why(command[0], error) from None
    if not made.is_file():
        raise Fault(f'{target}: {command[0]} ended with {ended.returncode}: {first_line(ended.stderr.decode(errors="replace"))}')
    return made.read_bytes()
