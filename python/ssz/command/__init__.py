"""The command for people, `python -m ssz`: what can be asked of a value in bytes."""
