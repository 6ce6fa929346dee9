"""A process in which the system refuses one call: with this, `subprocess.run(.., preexec_fn=refusing(GETRANDOM, errno.ENOSYS))`.

The filter is that of the system (seccomp), so it needs no other program, and holds for what the process starts.
"""

import ctypes
import os
import struct

FTRUNCATE, GETRANDOM = 77, 318  # numbers of calls, Linux on x86-64
NO_NEW_PRIVILEGES, SECCOMP, FILTER = 38, 22, 2  # of prctl
LOAD, IS_EQUAL, ANSWER = 0x20, 0x15, 0x06  # of the filter's language
ALLOW, REFUSE = 0x7FFF0000, 0x00050000


def refusing(call, error):
    """What a child does before it starts its program."""
    steps = ((LOAD, 0, 0, 0), (IS_EQUAL, 0, 1, call), (ANSWER, 0, 0, REFUSE | error), (ANSWER, 0, 0, ALLOW))
    code = ctypes.create_string_buffer(b"".join(struct.pack("=HBBI", *step) for step in steps))
    program = struct.pack("@HP", len(steps), ctypes.addressof(code))
    library = ctypes.CDLL(None, use_errno=True)

    def before():
        if library.prctl(NO_NEW_PRIVILEGES, 1, 0, 0, 0) or library.prctl(SECCOMP, FILTER, program, 0, 0):
            raise OSError(ctypes.get_errno(), os.strerror(ctypes.get_errno()))

    before.code = code  # which has to stay
    return before
