"""All that is called around the program: the command `nozhgiva`, the scripts of operate/, groups that are run, texts that are read, pages, and what
keeps the repository in order. The standard library is all that it needs."""
