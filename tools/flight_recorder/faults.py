"""What can be wrong, as one line for the user."""


class Fault(Exception):
    """What is wrong with an input or with the words of a command: one line, with the row, line or byte that it is at."""

    def lines(self) -> list[str]:
        """What is said of it."""
        return [str(self)]


class Faults(Fault):
    """Several faults of one input, each a line of its own."""

    def __init__(self, each: list[str]) -> None:
        super().__init__("; ".join(each))
        self.each = each

    def lines(self) -> list[str]:
        """What is said of each."""
        return self.each


class MissingPackage(Fault):
    """A package that a command needs and that isn't installed."""

    def __init__(self, package: str) -> None:
        super().__init__(f"{package} isn't installed: apt-get install {package}")
