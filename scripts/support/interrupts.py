"""Interrupts of calls on the binding for Python: at a chosen step, and by a real signal."""

import os
import signal
import sys
import threading
import time

import puljemrod


def interrupted_at(step, call):
    """Makes a call, with a KeyboardInterrupt at this step of the binding's code. Its steps are
    those of the interpreter, without those that take and return the lock, which no signal
    divides."""
    left = step

    def trace(frame, event, _):
        nonlocal left
        if frame.f_code.co_filename != puljemrod.__file__ or frame.f_code.co_name == "step":
            return None
        frame.f_trace_opcodes, frame.f_trace_lines = True, False
        left -= event == "opcode"
        if left == 0:
            raise KeyboardInterrupt
        return trace

    sys.settrace(trace)
    try:
        return call()
    finally:
        sys.settrace(None)


def until_interrupted(call, most_seconds, draw):
    """Makes a call again and again until a SIGINT comes, at a random moment. Python drops the
    exception if it is raised while an object is finalized: then no call was interrupted."""
    sent = threading.Event()

    def interrupt():
        os.kill(os.getpid(), signal.SIGINT)
        sent.set()

    timer = threading.Timer(draw.uniform(0, most_seconds), interrupt)
    try:
        timer.start()
        while not sent.is_set():
            call()
        time.sleep(0.01)
    except KeyboardInterrupt:
        pass
    timer.join()
