# A notebook as a script: an editor with cells (VS Code, Spyder, jupytext) runs each part that begins with %%, and shows its last value.
# %%
from __future__ import annotations

import dataclasses
import pathlib

import pandas

import mcsim

SYSTEMS = pathlib.Path(__file__).resolve().parents[1] / 'systems'
found = mcsim.System.read(SYSTEMS / 'network_driver.toml')

# %% the schedule, as a picture
found.view(100)

# %% what is wrong with it
pandas.DataFrame(found.check(100).findings)

# %% a larger budget
mended = found.put(dataclasses.replace(found.context('driver'), budget=14))
mended.view(100)

# %% the figures of both
both = {'as found': found, 'mended': mended}
figures = pandas.concat({name: pandas.DataFrame(system.table(1000)) for name, system in both.items()}, names=['system'])
figures[['thread', 'budget', 'rounds', 'greatest', 'deadline', 'margin', 'missed']]

# %% how the responses of the driver are spread
jobs = pandas.DataFrame(mended.jobs(1000))
jobs[jobs.thread == 'Driver'].response.value_counts()
