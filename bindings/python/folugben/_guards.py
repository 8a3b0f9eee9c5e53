"""Guards of the calls on a run."""
import functools
import os
import sys
import weakref
from collections.abc import Callable
from contextlib import AbstractContextManager
from types import FrameType
from typing import Any, NoReturn, ParamSpec, TypeVar

from ._errors import PackageError

_P = ParamSpec("_P")
_R = TypeVar("_R")


class NestedError(PackageError, RuntimeError):
    """A signal handler or a finalizer called a run during another call of its thread.

    Nothing was done.
    """


class ForkedError(PackageError, RuntimeError):
    """A call in the child of a fork used an object of its parent; nothing was done.

    The child has a copy of the parent's memory. So nothing that it fires reaches the parent, and a lock that another thread of
    the parent held is never released. Create storages in the child itself, or start it by `spawn`.
    """


class _ForkedLock:
    """The lock, in the child of a fork, of the objects that the parent created."""

    def __enter__(self) -> NoReturn:
        raise ForkedError("this was made in the parent of this process, and a fork's child has a copy of it alone")

    def __exit__(self, *_: object) -> None:
        pass


class LockHolder:
    """An object with a lock, by which its calls are stopped in the child of a fork."""

    _lock: AbstractContextManager[Any]

    def _set_lock(self, lock: AbstractContextManager[Any]) -> None:
        self._lock = lock
        _lock_holders.add(self)

    def _enter_child(self) -> None:
        """Stop further calls, in the child of a fork."""
        self._lock = _ForkedLock()


_lock_holders: "weakref.WeakSet[LockHolder]" = weakref.WeakSet()


def _stop_after_fork() -> None:
    for holder in list(_lock_holders):
        holder._enter_child()
    _lock_holders.clear()


os.register_at_fork(after_in_child=_stop_after_fork)


def is_in_call(depth: int = 1) -> bool:
    """Return whether a thread is in a call, this many frames above this one."""
    frame: FrameType | None = sys._getframe(depth)
    while frame is not None:
        if frame.f_code is _call_code:
            return True
        frame = frame.f_back
    return False


def one_call(method: Callable[_P, _R]) -> Callable[_P, _R]:
    """Make a method of a run one call: its thread makes no other before it ends.

    Python runs signal handlers and finalizers between any two lines of a method, which may hold a lock.
    """

    @functools.wraps(method)
    def call(*arguments: _P.args, **named: _P.kwargs) -> _R:
        if is_in_call(2):
            raise NestedError("this thread is in another call, which a signal handler or a finalizer has interrupted")
        return method(*arguments, **named)

    return call


# All such methods have one code.
_call_code = one_call(is_in_call).__code__
