"""Shared by the browsers of chromium.py and firefox.py. Neither needs a package beside Python's own."""
import os
import shutil
import time

# Seconds that a browser may take to begin.
SLOW_START = 300


class Failed(Exception):
    """A test found a wrong result."""


class Missing(Exception):
    """This browser lacks a feature that a test needs."""


def found(kind):
    return next(filter(None, map(shutil.which, kind.NAMES)), None)


def cleared(profile):
    """Takes the profile away, in which processes that end still write for a moment."""
    for _ in range(50):
        shutil.rmtree(profile, ignore_errors=True)
        if not os.path.exists(profile):
            return
        time.sleep(0.1)
