"""What a program refuses."""


class Fault(Exception):
    """The line of a fault, without the program's name, and the exit status."""
