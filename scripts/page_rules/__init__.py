"""The rules of scripts/pages.py, one module for each kind."""
