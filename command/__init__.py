"""The night floor's command, `night-list`: builds the proved program once, runs it, and looks after the files around it."""
