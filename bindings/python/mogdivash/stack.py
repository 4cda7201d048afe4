"""Calls on a thread with room enough on its stack.

The thread is the system's own, by ctypes: `threading` has one size of stack for the whole process, and to change it for a moment would
be seen by whoever starts a thread meanwhile.
"""

import ctypes

# The search for a blocking glyph takes up to 3 MiB and the other calls 1.5, which a thread of the caller need not have.
STACK = 4 << 20

_START = ctypes.CFUNCTYPE(ctypes.c_void_p, ctypes.c_void_p)
# pthread_attr_t of Linux on x86-64: 56 bytes, aligned as a long is.
_Attributes = ctypes.c_long * 8
_libc = ctypes.CDLL(None)
_libc.pthread_attr_setstacksize.argtypes = [ctypes.POINTER(_Attributes), ctypes.c_size_t]
_libc.pthread_create.argtypes = [ctypes.POINTER(ctypes.c_ulong), ctypes.POINTER(_Attributes), _START, ctypes.c_void_p]
_libc.pthread_join.argtypes = [ctypes.c_ulong, ctypes.c_void_p]


def on_own_stack(call):
    """What `call` returns or raises, run by a thread of its own."""
    outcome = []

    def run(_given):
        try:
            outcome.append((call(), None))
        except BaseException as error:  # handed to the caller
            outcome.append((None, error))

    start = _START(run)
    thread, attributes = ctypes.c_ulong(), _Attributes()
    _libc.pthread_attr_init(attributes)
    try:
        _libc.pthread_attr_setstacksize(attributes, STACK)
        if _libc.pthread_create(thread, attributes, start, None) != 0:
            raise RuntimeError("no thread is to be had")
    finally:
        _libc.pthread_attr_destroy(attributes)
    _libc.pthread_join(thread, None)
    answer, error = outcome[0]
    if error is not None:
        raise error
    return answer
