"""A desk is killed at a call on its store's files, and some once more while they open it again. What it told as done
stands, and what was cut off is there whole or not at all; a run after it does the rest. This is what a kill leaves on
this machine, and not what a loss of power leaves."""

import pytest
import refusals
from refused_commands import OVER_STORES
from support.samples import DONE

@refusals.MOST
@pytest.mark.parametrize("name", OVER_STORES)
def test_killed_desk_keeps_what_it_told_as_done(name, most, place, tmp_path, chance):
    refusals.Sweep(place, OVER_STORES[name], refusals.Kill(tmp_path / "calls")).refuse(chance, most)

@pytest.mark.parametrize("name", ["made-deeded", "ruled-program"])
def test_lost_log_is_seen(name, place, tmp_path):
    """What the test above looks for is there to be seen: without the log, what was told as done is lost."""
    sweep = refusals.Sweep(place, OVER_STORES[name], refusals.Kill(tmp_path / "calls"))
    ran = next(ran for ran in map(sweep.run, range(1, sweep.count)) if ran.reply == DONE)
    sweep.judge(ran)
    (place.now / f"{refusals.STORE}-wal").write_bytes(b"")
    with pytest.raises(AssertionError, match="another store"):
        sweep.judge(ran)
