"""What calls, and a bench, may raise."""


class Ended(BaseException):
    """The run was stopped or killed, or the test case is over. No `Exception`, so that `except Exception` lets it pass."""


class DynamicError(Ended):
    """The call was a dynamic error, which has ended the test case."""


class ServerEnded(Ended):
    """The server has ended, or wrote what it may not write."""


class Refused(Exception):
    """The server refused a line of this run. It has changed nothing."""


class NoProgram(Exception):
    """There is no program to start."""
