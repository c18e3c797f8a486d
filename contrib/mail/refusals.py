"""What the gateway refuses, in words that stand in a delivery status notification."""


class Refused(Exception):
    """A message that is not passed on: an enhanced status code (RFC 3463), and why."""

    def __init__(self, code, words):
        super().__init__(f"{code} {words}")
        self.code, self.words = code, words


BAD_ADDRESS, NO_SUCH_NAME, NOT_A_USER = "5.1.3", "5.1.1", "5.7.1"
TOO_LONG, CANNOT_BE_READ, LOOP, WRONG_SET_UP, NOT_WRITTEN = "5.3.4", "5.6.0", "5.4.6", "4.3.5", "4.3.0"
