"""What monitors record of a run, merged into a schedule."""
