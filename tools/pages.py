"""Opens the pages of a folder of documents in Chromium, and looks at how they stand there.

    python3 -m tools.pages FOLDER --to PICTURES [--browser PATH] [--show PAGE]

prints `N pages fit at 360, 768 and 1280`, or a line for each page that does not, with status 1. A
page fits where nothing of it goes over the edge on the right, and where the browser has nothing to
say about it. PICTURES gets a picture of each page that is shown, at each width, and the last of
these pages as it is printed. What is shown is the overview, the residue, and each PAGE that is
named, below FOLDER.

The browser is asked through a pair of pipes: a message is JSON, and ends in a byte 0.
"""
import argparse
import base64
import fcntl
import json
import os
import select
import subprocess
import sys
import tempfile
import time
from pathlib import Path

WIDTHS = (360, 768, 1280)

# The most seconds that the browser takes to answer.
MOST_SECONDS = 120

OPTIONS = ("--headless=new", "--remote-debugging-pipe", "--no-first-run", "--disable-gpu",
           "--hide-scrollbars", "--disable-extensions", "--disable-background-networking")

# What a browser tells of a page by itself.
TOLD = ("Runtime.consoleAPICalled", "Runtime.exceptionThrown", "Log.entryAdded")


class Browser:
    """A browser with one page open."""

    def __init__(self, path, folder):
        words = [path, *OPTIONS, f"--user-data-dir={folder}"]
        if os.geteuid() == 0:
            words.append("--no-sandbox")
        asked, answers = os.pipe(), os.pipe()
        # Above 9, so that none of them is in the way of those that the browser reads and writes.
        theirs = [fcntl.fcntl(it, fcntl.F_DUPFD, 10) for it in (asked[0], answers[1])]
        self.process = subprocess.Popen(words, stdin=subprocess.DEVNULL, stdout=subprocess.DEVNULL,
                                        stderr=subprocess.DEVNULL, pass_fds=(3, 4),
                                        preexec_fn=lambda: [os.dup2(it, number) for number, it
                                                            in zip((3, 4), theirs)])
        for it in (asked[0], answers[1], *theirs):
            os.close(it)
        self.asked, self.answers = asked[1], answers[0]
        self.session, self.count, self.read, self.events = None, 0, b"", []
        target = self.ask("Target.createTarget", url="about:blank")["targetId"]
        attached = self.ask("Target.attachToTarget", targetId=target, flatten=True)
        self.session = attached["sessionId"]
        for part in ("Page", "Runtime", "Log"):
            self.ask(f"{part}.enable")

    def ask(self, method, **params):
        """What the browser answers."""
        self.count += 1
        message = {"id": self.count, "method": method, "params": params}
        if self.session:
            message["sessionId"] = self.session
        os.write(self.asked, json.dumps(message).encode() + b"\0")
        while (answer := self.next()).get("id") != self.count:
            self.events.append(answer)
        if "error" in answer:
            raise OSError(f"{method}: {answer['error']['message']}")
        return answer["result"]

    def wait(self, method):
        """Waits until the browser tells something."""
        while method not in [it.get("method") for it in self.events]:
            self.events.append(self.next())

    def next(self):
        """The next message of the browser."""
        end = time.time() + MOST_SECONDS
        while b"\0" not in self.read:
            ready = select.select([self.answers], [], [], max(0, end - time.time()))[0]
            more = os.read(self.answers, 1 << 20) if ready else b""
            if not more:
                raise OSError("the browser does not answer")
            self.read += more
        message, self.read = self.read.split(b"\0", 1)
        return json.loads(message)

    def open(self, path, width):
        """Opens a page in a window of a width: how wide and high it is, and what is told of it."""
        self.ask("Emulation.setDeviceMetricsOverride", width=width, height=900,
                 deviceScaleFactor=1, mobile=False)
        self.events = []
        error = self.ask("Page.navigate", url=Path(path).absolute().as_uri()).get("errorText")
        if error:
            raise OSError(f"{path}: {error}")
        self.wait("Page.loadEventFired")
        size = self.ask("Page.getLayoutMetrics")["cssContentSize"]
        told = [it for it in self.events if it.get("method") in TOLD]
        return size["width"], size["height"], told

    def picture(self, width, height):
        """A picture of the page that is open, all of it."""
        clip = {"x": 0, "y": 0, "width": width, "height": height, "scale": 1}
        shot = self.ask("Page.captureScreenshot", captureBeyondViewport=True, clip=clip)
        return base64.b64decode(shot["data"])

    def printed(self):
        """The page that is open as it is printed."""
        sheets = self.ask("Page.printToPDF", preferCSSPageSize=True, paperWidth=8.27,
                          paperHeight=11.69)
        return base64.b64decode(sheets["data"])

    def end(self):
        """Ends the browser, if need be by force."""
        self.session = None
        try:
            self.ask("Browser.close")
            self.process.wait(10)
        except (OSError, subprocess.TimeoutExpired):
            self.process.kill()
            self.process.wait()
        os.close(self.asked)
        os.close(self.answers)


def look(browser, path, width):
    """How a page stands in a window of a width: how high it is, and a line for each fault."""
    wide, high, told = browser.open(path, width)
    lines = [f"it is {wide} wide"] if wide > width else []
    return high, lines + [f"the browser says {json.dumps(it['params'])[:300]}" for it in told]


def look_through(browser, folder, shown, pictures):
    """Looks at all pages of a folder, and takes pictures of those that are shown: how many pages
    there are, and a line for each that does not fit."""
    paths, faults = sorted(Path(folder).rglob("*.html")), []
    for path in paths:
        name = path.relative_to(folder).as_posix()
        for width in WIDTHS:
            high, lines = look(browser, path, width)
            faults += [f"{name} at {width}: {it}" for it in lines]
            if name in shown:
                picture = browser.picture(width, high)
                (Path(pictures) / f"{path.stem}-{width}.png").write_bytes(picture)
        if name == shown[-1]:
            (Path(pictures) / f"{path.stem}.pdf").write_bytes(browser.printed())
    return len(paths), faults


def main():
    parser = argparse.ArgumentParser(prog="tools.pages", description=__doc__.splitlines()[0])
    parser.add_argument("folder", metavar="FOLDER")
    parser.add_argument("--to", required=True, metavar="PICTURES", help="a folder for the pictures")
    parser.add_argument("--browser", default="chromium", help="the path of Chromium")
    parser.add_argument("--show", action="append", default=[], metavar="PAGE")
    words = parser.parse_args()
    os.makedirs(words.to, exist_ok=True)
    shown = ["index.html", "residue.html", *words.show]
    # What the browser began may still write to its folder when it has ended.
    with tempfile.TemporaryDirectory(ignore_cleanup_errors=True) as room:
        browser = Browser(words.browser, room)
        try:
            count, faults = look_through(browser, words.folder, shown, words.to)
        finally:
            browser.end()
    widths = f"{', '.join(map(str, WIDTHS[:-1]))} and {WIDTHS[-1]}"
    print("\n".join(faults) if faults else f"{count} pages fit at {widths}")
    sys.exit(1 if faults else 0)


if __name__ == "__main__":
    main()
