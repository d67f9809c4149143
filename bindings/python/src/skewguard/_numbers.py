"""The numbers of requests and replies. Made by tools/layout.py, from the crate `messages`."""

# The number of the layout.
LAYOUT = 1


class Operation:
    """What a call asks for."""

    AGAIN = 0
    LINE = 1
    OPEN_SESSION = 2
    CLOSE_SESSION = 3
    PREPARE = 4
    FORGET = 5
    RUN = 6
    EXECUTE = 7
    BEGIN = 8
    BEGIN_READ_ONLY = 9
    COMMIT = 10
    ROLLBACK = 11
    REPORT = 12
    CHECKPOINT = 13
    RUN_ALL = 14
    TRANSACT = 15
    IMAGE = 16
    MOVE = 17


class Status:
    """What became of a call."""

    DONE = 0
    REFUSED = 1
    NO_MEMORY = 2
    REPLY_WAITS = 3
    BAD_REQUEST = 4
    NO_SESSION = 5
    NO_STATEMENT = 6
    WRONG_COUNT = 7
    BAD_VALUE = 8
    BAD_NAME = 9
    NAME_TAKEN = 10
    CLOSED = 11
    NOT_KEPT = 12
    JOURNALED = 13
    UNRESTORED = 14


class Kind:
    """What a reply is of."""

    NOTHING = 0
    OPENED = 1
    SESSION = 2
    STATEMENT = 3
    CHANGED = 4
    BEGUN = 5
    COMMITTED = 6
    ROLLED_BACK = 7
    INSERTED = 8
    UPDATED = 9
    DELETED = 10
    ROWS = 11
    MODES_SET = 12
    VERDICT = 13
    TEXT = 14
    REFUSAL = 15
    MISUSED = 16
    SEVERAL = 17
    UNRESTORED = 18
    IMAGE = 19


class ValueKind:
    """What a value is."""

    NULL = 0
    NUMBER = 1
    CHARACTERS = 2
    ALL = 3
    NO_VALUE = 4
    NUMERIC = 5
