"""How many bindings there are at once."""

import pandas as pd


def released(bindings: pd.DataFrame, hold: int = 0) -> pd.Series:
    """Returns when the number of each binding is free again: `hold` seconds after its end, or when its own inside endpoint
    gets it again."""
    free = bindings.ended + pd.Timedelta(seconds=hold)
    if hold == 0:
        return free
    renewed = bindings.groupby(["protocol", "host", "host_number"], observed=True).made.shift(-1)
    return free.where(~(renewed < free), renewed)


def steps(bindings: pd.DataFrame) -> pd.DataFrame:
    """Returns the bindings with a row where each is made (`step` 1) and one where its number is free again (-1), in order of
    `time`. At equal times numbers become free first, as in a run."""
    comes = bindings.assign(time=bindings.made, step=1)
    goes = bindings[bindings.released.notna()].assign(time=bindings.released, step=-1)
    return pd.concat([comes, goes]).sort_values(["time", "step"], kind="stable")


def at_once(steps: pd.DataFrame, by: list[str]) -> pd.DataFrame:
    """Returns the most at once in each group, and the first time at which there were as many."""
    steps = steps[[*by, "time", "step"]].reset_index(drop=True)
    steps["live"] = steps.groupby(by, observed=True).step.cumsum()
    first = steps.groupby(by, observed=True).live.idxmax()
    found = steps.loc[first, [*by, "live", "time"]]
    return found.rename(columns={"live": "most", "time": "first_at"}).set_index(by).sort_index()


def holders(steps: pd.DataFrame, by: list[str]) -> pd.DataFrame:
    """Returns the steps at which a host gets its first binding in a group, or loses its last one."""
    level = steps.groupby([*by, "host"], observed=True).step.cumsum()
    is_first = (steps.step == 1) & (level == 1)
    is_last = (steps.step == -1) & (level == 0)
    return steps[is_first | is_last]
