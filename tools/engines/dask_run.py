#!/usr/bin/python3
"""dask_run.py SCHEDULER: in a folder of `sweep --emit`, runs its jobs on the workers of dask.distributed, and leaves the results beside the systems.

The workers need mcsim and mcscheck (on PATH, or named by the variables MCSIM and MCSCHECK of their own), and see nothing of the folder."""
from __future__ import annotations

import pathlib
import subprocess
import sys
import tempfile

from dask.distributed import Client, as_completed


def result_of(name: str, system: bytes, head: bytes, archive: bytes) -> tuple[str, bytes, str]:
    """Runs one system on a worker: its name, its result, and what was said."""
    with tempfile.TemporaryDirectory() as place:
        folder = pathlib.Path(place)
        for file, content in ((name, system), ('sweep.json', head), ('sweep.pyz', archive)):
            (folder / file).write_bytes(content)
        ran = subprocess.run(['python3', 'sweep.pyz', '--run', name], cwd=folder, capture_output=True, text=True)
        target = (folder / name).with_suffix('.result')
        return name, target.read_bytes() if target.exists() else b'', ran.stderr


def main() -> int:
    client = Client(sys.argv[1])
    head, archive = (client.scatter(pathlib.Path(name).read_bytes(), broadcast=True) for name in ('sweep.json', 'sweep.pyz'))
    names = [name for name in pathlib.Path('jobs').read_text().split() if not pathlib.Path(name).with_suffix('.result').exists()]
    running = [client.submit(result_of, name, pathlib.Path(name).read_bytes(), head, archive, pure=False) for name in names]
    failed = 0
    for done in as_completed(running):
        name, result, said = done.result()
        if result:
            pathlib.Path(name).with_suffix('.result').write_bytes(result)
        else:
            failed += 1
            print(f'{name}: {said.strip()}', file=sys.stderr)
    return 1 if failed else 0


if __name__ == '__main__':
    sys.exit(main())
