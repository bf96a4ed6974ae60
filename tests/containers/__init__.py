"""The containers that the program replay reads."""
