"""Threads for the tests."""
import threading
from collections.abc import Callable


def in_threads(work: Callable[[int], object], count: int, seconds: float = 60) -> tuple[list[Exception], bool]:
    """Call work with 0, 1 .. at once, each in its own thread.

    Return the errors, and whether all threads ended.
    """
    start, errors = threading.Barrier(count), []

    def run(own):
        start.wait()
        try:
            work(own)
        except Exception as error:
            errors.append(error)

    threads = [threading.Thread(target=run, args=(own,), daemon=True) for own in range(count)]
    for thread in threads:
        thread.start()
    for thread in threads:
        thread.join(seconds)
    return errors, not any(thread.is_alive() for thread in threads)
