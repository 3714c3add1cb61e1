"""What ./nozhgiva test crashes is made of; README.md in this folder says what is tried, and what a failure means. It calls what the project has already: the
readers and writers of its formats, and its client."""
