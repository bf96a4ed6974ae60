"""A second reading of document 01, a module a section; see enumerator.py."""
