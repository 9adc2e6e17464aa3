"""How often the browser ran each block of the page's modules: a measure of work that is the same on any machine."""

from contextlib import contextmanager


@contextmanager
def counted(driver):
    """Counts what the page's modules run. Gives a dict that is filled at the end: for each block that ran, as (module, function,
    place in the module), how often."""
    runs = {}
    driver.execute_cdp_cmd("Profiler.enable", {})
    driver.execute_cdp_cmd("Profiler.startPreciseCoverage", {"callCount": True, "detailed": True})
    try:
        yield runs
        runs.update(blocks(driver.execute_cdp_cmd("Profiler.takePreciseCoverage", {})["result"]))
    finally:
        driver.execute_cdp_cmd("Profiler.stopPreciseCoverage", {})
        driver.execute_cdp_cmd("Profiler.disable", {})


def blocks(scripts):
    """The blocks of modules. What a test itself had run stands in no file."""
    return {
        ("/".join(script["url"].split("/")[-2:]), function["functionName"], block["startOffset"]): block["count"]
        for script in scripts
        if script["url"].endswith(".js")
        for function in script["functions"]
        for block in function["ranges"]
    }
