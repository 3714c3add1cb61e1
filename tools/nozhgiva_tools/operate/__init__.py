"""What the scripts of operate/ share; tools/README.md says which module is for which script."""
