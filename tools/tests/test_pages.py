"""Tests of how pages are looked at, with a stand-in for the browser."""
import os
import subprocess
import sys
import tempfile
import unittest

from tools.crates import ROOT

# It answers through its pipes as a browser does. A page called `wide` is 500 wide, there is
# something to say about one called `loud`, and one called `gone` ends the browser.
STAND_IN = """#!{python}
import base64, json, os, sys

def send(**message):
    os.write(4, json.dumps(message).encode() + b"\\0")

def answer(method, params):
    global page, width
    if method == "Target.createTarget":
        return {{"targetId": "T"}}
    if method == "Target.attachToTarget":
        return {{"sessionId": "S"}}
    if method == "Emulation.setDeviceMetricsOverride":
        width = params["width"]
    if method == "Page.navigate":
        page = params["url"]
        if page.endswith("gone.html"):
            sys.exit()
        if page.endswith("loud.html"):
            send(method="Log.entryAdded", params={{"entry": "refused"}})
        send(method="Page.loadEventFired", params={{}})
    if method == "Page.getLayoutMetrics":
        wide = 500 if page.endswith("wide.html") else 300
        return {{"cssContentSize": {{"width": max(wide, width), "height": 700}}}}
    if method in ("Page.captureScreenshot", "Page.printToPDF"):
        text = f"{{method}} {{params.get('clip', {{}}).get('height')}}"
        return {{"data": base64.b64encode(text.encode()).decode()}}
    return {{}}

texts = os.fdopen(3, "rb")
rest = b""
while more := texts.read1(1 << 16):
    *messages, rest = (rest + more).split(b"\\0")
    for text in messages:
        asked = json.loads(text)
        send(id=asked["id"], result=answer(asked["method"], asked["params"]))
        if asked["method"] == "Browser.close":
            sys.exit()
"""


class Pages(unittest.TestCase):
    def setUp(self):
        folder = tempfile.TemporaryDirectory()
        self.addCleanup(folder.cleanup)
        self.folder = folder.name
        self.browser = self.written("browser", STAND_IN.format(python=sys.executable))
        os.chmod(self.browser, 0o755)
        for name in ("index.html", "residue.html", "payees/0001-A.html"):
            self.written(f"pages/{name}", "")

    def written(self, name, text):
        """A file below the folder of the test: its path."""
        path = os.path.join(self.folder, name)
        os.makedirs(os.path.dirname(path), exist_ok=True)
        with open(path, "w", encoding="utf-8") as file:
            file.write(text)
        return path

    def run_over(self, *more):
        """The status of the command over the pages, and what it prints."""
        words = [sys.executable, "-m", "tools.pages", os.path.join(self.folder, "pages"),
                 "--browser", self.browser, "--to", os.path.join(self.folder, "shots"), *more]
        done = subprocess.run(words, cwd=ROOT, capture_output=True, text=True)
        return done.returncode, done.stdout + done.stderr

    def test_pages_that_fit_are_counted_and_shown(self):
        self.assertEqual(self.run_over("--show", "payees/0001-A.html"),
                         (0, "3 pages fit at 360, 768 and 1280\n"))
        self.assertEqual(sorted(os.listdir(os.path.join(self.folder, "shots"))), sorted(
            [f"{name}-{width}.png" for name in ("0001-A", "index", "residue")
             for width in (360, 768, 1280)] + ["0001-A.pdf"]))
        with open(os.path.join(self.folder, "shots", "index-360.png"), encoding="utf-8") as file:
            self.assertEqual(file.read(), "Page.captureScreenshot 700")

    def test_pages_that_do_not_fit_are_told(self):
        self.written("pages/payees/wide.html", "")
        self.written("pages/payees/loud.html", "")
        says = "the browser says {\"entry\": \"refused\"}"
        self.assertEqual(self.run_over(), (1, "".join(f"{it}\n" for it in [
            *(f"payees/loud.html at {width}: {says}" for width in (360, 768, 1280)),
            "payees/wide.html at 360: it is 500 wide"])))

    def test_a_browser_that_ends_is_told(self):
        self.written("pages/gone.html", "")
        status, told = self.run_over()
        self.assertEqual(status, 1)
        self.assertIn("the browser does not answer", told)


if __name__ == "__main__":
    unittest.main()
