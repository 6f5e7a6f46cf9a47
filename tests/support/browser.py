"""A real browser without a window: Debian's chromium and chromium-driver by python3-selenium."""

from __future__ import annotations

import base64
import importlib
import shutil
import sys
from pathlib import Path
from typing import Any

DEBIANS_MODULES = "/usr/lib/python3/dist-packages"


def lacking() -> str:
    """What is missing to run a browser, and the command that installs it; nothing, if it can run."""
    if DEBIANS_MODULES not in sys.path:
        sys.path.append(DEBIANS_MODULES)
    missing = [package for command, package in (("chromium", "chromium"), ("chromedriver", "chromium-driver")) if not shutil.which(command)]
    try:
        importlib.import_module("selenium")
    except ImportError:
        missing.append("python3-selenium")
    return f"no browser: apt-get install {' '.join(missing)}" if missing else ""


def browser(width: int = 1000, height: int = 900, dark: bool = False, script: bool = False) -> Any:
    """A browser with a window of this size, in the light or in the dark, which runs scripts or doesn't. It is to be ended by `quit`."""
    from selenium import webdriver
    from selenium.webdriver.chrome.options import Options
    from selenium.webdriver.chrome.service import Service

    options = Options()
    options.binary_location = shutil.which("chromium") or ""
    for word in ("--headless=new", "--no-sandbox", "--disable-gpu", "--disable-dev-shm-usage", "--hide-scrollbars"):
        options.add_argument(word)
    options.add_argument(f"--window-size={width},{height}")
    if dark:
        options.add_argument("--blink-settings=preferredColorScheme=0")
    if not script:
        options.add_experimental_option("prefs", {"profile.managed_default_content_settings.javascript": 2})
    driver = webdriver.Chrome(service=Service(shutil.which("chromedriver") or ""), options=options)
    # A window can't be as narrow as a telephone: the size of the page is set by itself.
    driver.execute_cdp_cmd(
        "Emulation.setDeviceMetricsOverride", {"width": width, "height": height, "deviceScaleFactor": 1, "mobile": width < 500}
    )
    if dark:
        driver.execute_cdp_cmd("Emulation.setEmulatedMedia", {"features": [{"name": "prefers-color-scheme", "value": "dark"}]})
    return driver


def is_gone(element: Any) -> bool:
    """Whether an element's page has given way to another. The driver has two errors for it."""
    from selenium.common.exceptions import StaleElementReferenceException, WebDriverException

    try:
        element.is_enabled()
    except StaleElementReferenceException:
        return True
    except WebDriverException as error:
        if "does not belong to the document" not in str(error):
            raise
        return True
    return False


def picture(driver: Any, path: Path, height: int | None = None) -> None:
    """Keeps a picture of the whole page, or of so many pixels from its top."""
    size = driver.execute_cdp_cmd("Page.getLayoutMetrics", {})["cssContentSize"]
    clip = {"x": 0, "y": 0, "width": size["width"], "height": min(height or size["height"], size["height"]), "scale": 1}
    shot = driver.execute_cdp_cmd("Page.captureScreenshot", {"format": "png", "captureBeyondViewport": True, "clip": clip})
    path.write_bytes(base64.b64decode(shot["data"]))
