"""What trials in a Chromium share: how one is started, and what is measured of a page."""
import base64
import math
import os
import re
import shutil
import subprocess
import threading

from trials import hold

try:
    from selenium import webdriver
    from selenium.common.exceptions import WebDriverException
    from selenium.webdriver import ActionChains
    from selenium.webdriver.chrome.options import Options
    from selenium.webdriver.chromium.remote_connection import ChromiumRemoteConnection
    from selenium.webdriver.common.keys import Keys
except ImportError:
    webdriver = None

# How much longer everything may take than on a machine that has nothing else to do.
FACTOR = float(os.environ.get("BERRUZPIL_PATIENCE", "1"))
# The texts whose contrast with what lies behind them, or with white paper, is less than 4.5 (WCAG 2.2, 1.4.3).
CONTRAST = """
    const parse = (text) => text.match(/[\\d.]+/g).map(Number);
    const light = ([red, green, blue]) => [red, green, blue].map((it) => it / 255).map((it) =>
        it <= 0.04045 ? it / 12.92 : ((it + 0.055) / 1.055) ** 2.4)
        .reduce((sum, it, at) => sum + it * [0.2126, 0.7152, 0.0722][at], 0);
    const probe = document.body.appendChild(document.createElement("div"));
    probe.style.backgroundColor = "Canvas";
    const canvas = parse(getComputedStyle(probe).backgroundColor);
    probe.remove();
    const isPaper = arguments[0];
    const behind = (element) => {
        if (isPaper) { return [255, 255, 255]; }
        for (let it = element; it; it = it.parentElement) {
            const colour = parse(getComputedStyle(it).backgroundColor);
            if (colour.length === 3 || colour[3] === 1) { return colour; }
        }
        return canvas;
    };
    const texts = [...document.querySelectorAll("body *")].filter((it) => it.checkVisibility() &&
        [...it.childNodes].some((node) => node.nodeType === 3 && node.data.trim()));
    return texts.filter((it) => {
        const [one, other] = [light(parse(getComputedStyle(it).color)), light(behind(it))];
        return (Math.max(one, other) + 0.05) / (Math.min(one, other) + 0.05) < 4.5;
    }).map((it) => `${it.tagName} ${it.className} ${it.textContent.slice(0, 30)}`);
"""
# What can be pressed: of radio buttons the one that is chosen.
PRESSED = """[...document.querySelectorAll("button, input, a")]
    .filter((it) => it.checkVisibility() && !(it.type === "radio" && !it.checked))"""


class Late(Exception):
    """What did not come in time."""


def plain_options(profile, *words):
    """The options of a browser with this profile and these words, which asks for nothing by itself."""
    options = Options()
    options.binary_location = shutil.which("chromium")
    for word in ["headless=new", "no-sandbox", "disable-gpu", "disable-dev-shm-usage", "no-first-run",
                 "window-size=1200,1000", f"user-data-dir={profile}", "disable-background-networking", *words]:
        options.add_argument(f"--{word}")
    options.set_capability("goog:loggingPrefs", {"browser": "ALL"})
    return options


def start_driver(options, home, start=subprocess.Popen):
    """A driver of a new browser, and what ends it."""
    for left in reversed(range(math.ceil(3 * FACTOR))):
        try:
            return start_once(options, home, start)
        except WebDriverException:
            # On a machine that has much else to do the browser may begin later than chromedriver waits, a minute.
            if left == 0:
                raise
    return None


def start_once(options, home, start):
    process = start([shutil.which("chromedriver"), "--port=0"], env={**os.environ, "HOME": str(home)},
                    stdout=subprocess.PIPE, stderr=subprocess.DEVNULL, text=True)
    try:
        ports = (re.search(r"started successfully on port (\d+)", line) for line in process.stdout)
        port = next(filter(None, ports), None)
        if port is None:
            raise Late("chromedriver")
        threading.Thread(target=process.stdout.read, daemon=True).start()
        connection = ChromiumRemoteConnection(f"http://127.0.0.1:{port[1]}", "goog", "chrome")
        return webdriver.Remote(command_executor=connection, options=options), process.terminate
    except (Late, WebDriverException):
        process.terminate()
        raise


def command(driver, name, **words):
    """What a command of the DevTools protocol gives."""
    return driver.execute("executeCdpCommand", {"cmd": name, "params": words})["value"]


def described(fault):
    """An exception in a line: a driver's has the stack of the browser behind its message."""
    return f"{type(fault).__name__}: {(str(fault).splitlines() or [''])[0]}"


def resize(driver, width, height):
    size = {"width": width, "height": height, "deviceScaleFactor": 1, "mobile": False}
    command(driver, "Emulation.setDeviceMetricsOverride", **size)


def take_picture(driver, file):
    file.write_bytes(base64.b64decode(command(driver, "Page.captureScreenshot", format="png")["data"]))


def try_keyboard(driver, name="the page"):
    """Each thing that can be pressed has a name, is reached by the key Tab, from the top to the bottom, and is seen to
    have the focus then."""
    tree = command(driver, "Accessibility.getFullAXTree")["nodes"]
    named = {"button", "textbox", "searchbox", "link", "radio", "heading"}
    shown = [node for node in tree if not node.get("ignored") and node.get("role", {}).get("value") in named]
    hold(f"{name}: what can be pressed has a name",
         [node["role"]["value"] for node in shown if not node.get("name", {}).get("value")], [])
    wanted = driver.execute_script(f"""
        window.wanted = {PRESSED};
        window.reached = [];
        document.activeElement.blur();
        document.body.tabIndex = -1;
        document.body.focus();
        return wanted.length;
    """)
    for _ in range(wanted + 2):
        ActionChains(driver).send_keys(Keys.TAB).perform()
        driver.execute_script("""
            const it = document.activeElement;
            if (it !== document.body && !reached.includes(it)) {
                const shown = it.type === "file" ? it.nextElementSibling : it;
                const box = shown.getBoundingClientRect(), outline = getComputedStyle(shown);
                it.isSeen = box.left >= 0 && box.right <= innerWidth + 1 && outline.outlineStyle !== "none";
                reached.push(it);
            }
        """)
    hold(f"{name}: each is reached by Tab, in its order",
         driver.execute_script("return wanted.length === reached.length && wanted.every((it, at) => it === reached[at])"
                               "|| reached.map((it) => it.outerHTML.slice(0, 60))"), True)
    hold(f"{name}: what has the focus is seen", driver.execute_script(
        "return reached.filter((it) => !it.isSeen).map((it) => it.outerHTML.slice(0, 60))"), [])
