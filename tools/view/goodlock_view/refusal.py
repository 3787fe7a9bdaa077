"""Why the command ends without doing what it was asked."""


class Refusal(Exception):
    """Input or usage that is refused; the text says where and what is wrong."""
