"""What the tests of the page share: one Chromium, and the server's page in it."""

from collections.abc import Iterator
from pathlib import Path

import pytest

from tests.shared.browsing import Browser, chromium, shows
from tests.shared.examples import serving
from tests.shared.simulated import Simulated


@pytest.fixture(scope="session")
def browser() -> Iterator[Browser]:
    """Chromium; a test is skipped where there is none with its driver, or no selenium."""
    driver = chromium()
    yield driver
    driver.quit()


@pytest.fixture
def editor(browser: Browser) -> Iterator[Browser]:
    """The browser with the server's page of the paper's example; its runs are the package's."""
    with serving(Simulated(Path("simulated"))) as server:
        browser.get(f"http://127.0.0.1:{server.port}/")
        shows(browser, "edf cc, 16 ticks")
        yield browser
        browser.get("about:blank")


@pytest.fixture(autouse=True)
def without_faults(request: pytest.FixtureRequest) -> Iterator[None]:
    """No test leaves a fault in the browser's log; the policy's refusals are there too."""
    yield
    if "browser" in request.fixturenames:
        driver = request.getfixturevalue("browser")
        driver.execute_cdp_cmd("Emulation.clearDeviceMetricsOverride", {})
        log = [each["message"] for each in driver.get_log("browser")]
        assert [line for line in log if "status of 4" not in line and "status of 503" not in line] == []
