"""The checks of the enumerator and of the stored files, a module a subject."""
