"""The checks of `tools/lint`, a module for each subject."""
