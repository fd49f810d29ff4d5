"""A real browser without a window, for tests: Debian's chromium and chromium-driver, driven by its python3-selenium."""

import os
import shutil
import sys
import time
from collections.abc import Sequence
from typing import Any, Callable

SECONDS = 300  # that a step may take, on a slow machine too
FIRST_PAUSE, LONGEST_PAUSE = 0.02, 0.15  # seconds between two looks at the page, each of which takes time of the processor
HEADLESS_SHELL = "/usr/lib/chromium/chromium-headless-shell"  # Debian's command waits for it, and would end without it
FEWER_PROCESSES = ["in-process-gpu", "enable-features=NetworkServiceInProcess2"]
OWN = """
window.clock = 0;
Object.defineProperty(BaseAudioContext.prototype, "currentTime", { get: () => window.clock });
window.played = [];
window.samples = 0;
for (const { prototype } of [AudioScheduledSourceNode, AudioBufferSourceNode]) {
  const start = prototype.start;
  prototype.start = function (when) {
    if (this.buffer) window.samples += 1;
    const pitch = this.frequency ? this.frequency.value : 440 * this.playbackRate.value; // samples of the tests are of A4
    window.played.push([when, Math.round(69 + 12 * Math.log2(pitch / 440))]);
    return start.call(this, when);
  };
}
addEventListener("beforeunload", (event) => window.asksToStay || event.stopImmediatePropagation());
Object.defineProperty(AudioContext.prototype, "outputLatency", { get: () => 0 });
window.wrong = [];
addEventListener("error", ({ message }) => window.wrong.push(message));
addEventListener("unhandledrejection", ({ reason }) => window.wrong.push(String(reason)));
"""  # Web Audio by a clock that the test moves, and each note that it gets: when, and its key, and how many are of samples; no page asks to stay but for a test that wants it; what went wrong


def lacking() -> str:
    """What is not installed here, or nothing."""
    for more in ((), ("/usr/lib/python3/dist-packages",)):
        sys.path.extend(more)
        try:
            import selenium.webdriver.chrome.webdriver  # noqa: F401
        except Exception as error:
            why = f"python3-selenium is not installed, or not for this Python: {error}"
        else:
            missing = [name for name in ("chromium", "chromedriver") if not shutil.which(name)]
            return f"{' and '.join(missing)} is not installed" if missing else ""
    return why


class NotStarted(Exception):
    """No browser started."""


def started(options: Sequence[str] = (), *, is_light: bool = False) -> Any:
    """A browser with some options. A light one takes less time of the processor: it is the headless shell of Chromium if that is
    installed, which has the same engine without the parts for windows, and it has fewer processes."""
    from selenium.common.exceptions import WebDriverException
    from urllib3.exceptions import HTTPError

    try:
        return made_ready([HEADLESS_SHELL, "chromium"], [*options, *FEWER_PROCESSES]) if is_light else made_ready(["chromium"], [*options])
    except (WebDriverException, HTTPError) as error:
        raise NotStarted(str(error)) from error


def made_ready(programs: list[str], more: list[str]) -> Any:
    """The first of some browsers that is installed, with more options. Its windows are as large as the tests want, and its pages begin
    with the script above."""
    from selenium import webdriver
    from selenium.webdriver.chrome.service import Service
    from selenium.webdriver.remote.remote_connection import RemoteConnection

    RemoteConnection.set_timeout(2 * SECONDS)
    options = webdriver.ChromeOptions()
    options.binary_location = next(filter(None, map(shutil.which, programs)))
    words = ["headless=new", "disable-gpu", "disable-dev-shm-usage", "autoplay-policy=no-user-gesture-required", *more]
    for word in words + (["no-sandbox"] if os.getuid() == 0 else []):
        options.add_argument(f"--{word}")
    options.set_capability("goog:loggingPrefs", {"browser": "ALL"})
    driver = webdriver.Chrome(options=options, service=Service(shutil.which("chromedriver")))
    driver.set_page_load_timeout(SECONDS)
    driver.set_script_timeout(SECONDS)
    driver.set_window_size(1280, 900)
    driver.execute_cdp_cmd("Page.addScriptToEvaluateOnNewDocument", {"source": OWN})
    return driver


def wait(comes: Callable[[], Any]) -> Any:
    """Waits till something comes about, and gives it."""
    until, pause = time.monotonic() + SECONDS, FIRST_PAUSE
    while not (found := comes()):
        if time.monotonic() > until:
            raise AssertionError(f"waited {SECONDS} seconds in vain")
        time.sleep(pause)
        pause = min(1.5 * pause, LONGEST_PAUSE)
    return found


def type_keys(driver: Any, words: str, *held: str) -> None:
    """Types into whatever has the focus, while some keys are held down."""
    from selenium.webdriver.common.action_chains import ActionChains

    actions = ActionChains(driver)
    for key in held:
        actions.key_down(key)
    actions.send_keys(words.replace("\n", "\ue007"))
    for key in held:
        actions.key_up(key)
    actions.perform()


def press_button(driver: Any, element: Any) -> None:
    """Moves the mouse to an element, and presses its button there."""
    from selenium.webdriver.common.action_chains import ActionChains

    ActionChains(driver).move_to_element(element).click_and_hold().perform()


def release_button(driver: Any) -> None:
    """Releases the button of the mouse at its present place."""
    from selenium.webdriver.common.action_chains import ActionChains

    ActionChains(driver).release().perform()


def broke(error: Exception) -> bool:
    """Whether it is the browser or its driver that failed, and not what the page did there: no browser started, or it, its
    session or its window is gone. That an element is not there, or that the page does not answer, is the page's fault."""
    from selenium.common.exceptions import InvalidSessionIdException, NoSuchWindowException, WebDriverException

    gone = (NotStarted, InvalidSessionIdException, NoSuchWindowException)
    return isinstance(error, gone) or type(error) is WebDriverException
