"""A browser that is driven, for tests: Chromium without a window, its driver, and Selenium, as Debian has them. Run by itself it
says why the page cannot be tried, if it cannot; with `--missing`, which packages are missing."""
import importlib
import os
import shutil
import sys
import tempfile

# Where Debian puts what another Python than its own does not look at.
DEBIAN = "/usr/lib/python3/dist-packages"
BROWSERS = ("chromium", "chromium-browser", "google-chrome")
# Also where the machine is busy with other tests.
SECONDS = 240


def module(name):
    """A module of Selenium."""
    return importlib.import_module(f"selenium.webdriver.{name}")


def selenium():
    """Selenium itself, or nothing where it is not there."""
    for folder in (None, DEBIAN):
        if folder and folder not in sys.path and os.path.isdir(folder):
            sys.path.append(folder)
        try:
            return importlib.import_module("selenium.webdriver")
        except ImportError:
            continue
    return None


def missing():
    """What is not there of what a browser test needs."""
    found = {
        "chromium": any(map(shutil.which, BROWSERS)), "chromium-driver": shutil.which("chromedriver"),
        "python3-selenium": selenium(),
    }
    return [name for name, is_there in found.items() if not is_there]


def start(folder, width=1440, height=960):
    """A browser that keeps what it saves in a folder."""
    driver = selenium()
    options = driver.ChromeOptions()
    options.binary_location = next(filter(None, map(shutil.which, BROWSERS)))
    words = ["headless=new", "disable-gpu", "disable-dev-shm-usage", "force-device-scale-factor=1"]
    words.append(f"window-size={width},{height}")
    # Chromium has no sandbox where root starts it.
    for word in [*words, *(["no-sandbox"] if os.geteuid() == 0 else [])]:
        options.add_argument(f"--{word}")
    options.add_experimental_option("prefs", {"download.default_directory": str(folder), "download.prompt_for_download": False})
    options.set_capability("goog:loggingPrefs", {"browser": "ALL"})
    browser = driver.Chrome(service=module("chrome.service").Service(shutil.which("chromedriver")), options=options)
    browser.set_script_timeout(SECONDS)
    return browser


def started(folder):
    """A browser, or why there is none on this machine."""
    if missing():
        return None, f"not found: {' '.join(missing())}"
    try:
        return start(folder), ""
    except importlib.import_module("selenium.common.exceptions").WebDriverException as fault:
        return None, f"the browser does not start: {str(fault).strip().splitlines()[0]}"


def why_not():
    """Why the page cannot be tried on this machine; nothing where it can."""
    with tempfile.TemporaryDirectory() as folder:
        browser, why = started(folder)
        if browser:
            browser.quit()
    return why


if __name__ == "__main__":
    print(*(missing() if sys.argv[1:] == ["--missing"] else [why_not()]))
