"""What the C part does with the segments of a run, for core_work."""
from collections.abc import Callable

from folugben import Storage
from folugben._core import RunCore
from folugben._library import Code


def work_on_segments(expect_refusal: Callable[[Callable[[], object]], None]) -> None:
    with Storage([[["x"], "x" * 20_000]], 10) as storage:
        journal = storage.close_journal()
    core, other = RunCore(), RunCore()
    assert (core.hand(0, 0, journal)[0], core.read(), core.read()) == (Code.ORDER, 0, Code.ORDER)
    _, name = core.hand(0, 0, memoryview(journal))
    while core.request():
        assert core.done() == 0
    assert (core.drop(), core.saved()) == ((Code.ONE_SEGMENT, 0), (0, 1, 0, name[-72:-8]))
    assert other.name(b"x.journal", 1)[0] == Code.NAME and other.name(name.encode(), len(journal)) == (0, 0, 0, 0, 0)
    expect_refusal(lambda: other.text("x")), expect_refusal(lambda: other.hand(0, 0)), expect_refusal(lambda: other.name("x", 0))
    other.text(journal)
    assert (other.skip(), other.end(), other.state()[:5]) == (Code.ORDER, (0, 1, 0, 0), b'[[["x')
    other.failed(), other.free(), expect_refusal(other.request), expect_refusal(other.saved), expect_refusal(other.state)
