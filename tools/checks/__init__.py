"""The checks of tools/check_docs.py, one module for each subject."""
