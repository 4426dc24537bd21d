"""What the tools beside mcsim share: one reader of schedules, one drawer, one page."""
