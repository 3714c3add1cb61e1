"""The parts of ./nozhgiva check-commands: the commands that pages show (finding), the list of those that aren't run (listing), and a run of a page's (running)."""
