#!/usr/bin/env python3
"""The least budget with which the driver meets its deadline: sweep.py FILE. It needs the package mcsim (docs/LIBRARY.md)."""
import dataclasses
import sys

import mcsim

system = mcsim.System.read(sys.argv[1])
driver = system.context('driver')
for budget in range(10, driver.period):
    tried = system.put(dataclasses.replace(driver, budget=budget))
    found = tried.check(1000)
    missed = [one for one in found if isinstance(one, mcsim.Miss)]
    worst = max(job.response for job in tried.jobs(1000) if job.thread == 'Driver')
    print(f'budget {budget}: worst response {worst}, {len(missed)} missed, {len(found)} findings')
    if found.is_clean:
        break
