"""The page of tools/show: whole as a text, and in a real browser nothing is cut off and nothing lies over something else."""
import json
import os
import re
import shutil
import subprocess
import unittest
from html import unescape
from xml.etree import ElementTree

from around import WithFolder, made, run, store_of_examples, store_of_tutorial, tool
from random_stores import Writer

BROWSER = shutil.which("chromium") or shutil.which("chromium-browser") or shutil.which("google-chrome")
SECONDS = 180
# Two texts may touch; by more than this they lie over each other.
MEASURE = """
<script>
addEventListener("load", () => {
  const bad = [], texts = [...document.querySelectorAll("svg text")];
  for (const picture of document.querySelectorAll("svg.graph, svg.timeline")) {
    const frame = picture.getBoundingClientRect(), inside = [...picture.querySelectorAll("text")];
    const boxes = inside.map(text => [text.textContent, text.getBoundingClientRect(), text.closest("svg svg")]);
    for (const [text, box, clip] of boxes) {
      const room = clip ? clip.getBoundingClientRect() : frame;
      const fits = box.left >= room.left - 1 && box.right <= room.right + 1 && box.top >= frame.top - 1 && box.bottom <= frame.bottom + 1;
      if (!fits) bad.push("cut off: " + text);
    }
    for (let one = 0; one < boxes.length; one++) for (let two = one + 1; two < boxes.length; two++) {
      const a = boxes[one][1], b = boxes[two][1];
      if (Math.min(a.right, b.right) - Math.max(a.left, b.left) > 1 && Math.min(a.bottom, b.bottom) - Math.max(a.top, b.top) > 3)
        bad.push("over each other: " + boxes[one][0] + " and " + boxes[two][0]);
    }
  }
  if (document.documentElement.scrollWidth > innerWidth) bad.push("the page is wider than the window");
  const box = document.querySelector("input[data-finds]"), rows = [...document.querySelectorAll("#log tbody tr")];
  if (box) {
    if (box.hidden) bad.push("the box that finds entries is hidden");
    box.value = "no such word"; box.dispatchEvent(new Event("input"));
    if (rows.some(row => !row.hidden)) bad.push("the box hides nothing");
    box.value = rows[0].cells[1].textContent; box.dispatchEvent(new Event("input"));
    if (rows[0].hidden) bad.push("the box does not find the first entry");
  }
  const found = document.createElement("pre");
  found.id = "measured";
  found.textContent = JSON.stringify({texts: texts.length, bad});
  document.body.append(found);
});
</script>
"""


class Pages(WithFolder):
    def page(self, store):
        path = self.folder / "s.html"
        done = tool("show", store, "--html", path)
        self.assertEqual((done.returncode, done.stderr), (0, ""))
        return path.read_text(encoding="utf-8")

    def test_pictures_are_whole(self):
        page = self.page(store_of_examples(self.store))
        pictures = [ElementTree.fromstring(text) for text in re.findall(r"<svg .*?</svg>(?=</div>|\n)", page, re.DOTALL)]
        told = ["".join(picture.itertext()) for picture in pictures]
        for name in ("LIVE", "Plan", "Parks 2025", "Roads 2025", "before the cuts", "Huber", "three stones and a post"):
            self.assertTrue(any(name in text for text in told), name)
        self.assertNotIn("http", page)

    def test_names_are_no_markup(self):
        made(self.store)
        script = ("CONNECT A ANN\nA: EXECUTE DBMS_WM.CreateWorkspace('<b>&''\"')\nA: EXECUTE DBMS_WM.CreateSavepoint('LIVE', '</svg><i>')\n"
                  "A: CREATE TABLE T (ID VARCHAR2(20) PRIMARY KEY, N VARCHAR2(20))\nA: EXECUTE DBMS_WM.EnableVersioning('T', validTime => TRUE)\n"
                  "A: INSERT INTO T VALUES ('<script>', '</td>&amp;', WM_PERIOD(DATE '2020-01-01', DATE '2021-01-01'))\n")
        self.assertNotIn(b"WM-", run(self.store, "2024-01-01", script.encode()).stdout)
        page = self.page(self.store)
        for text in ("<b>&'\"", "</svg><i>", "</td>&amp;"):
            self.assertNotIn(text, page)
            self.assertIn(text, unescape(page))

    @unittest.skipUnless(BROWSER, "there is no Chromium here")
    def test_in_a_browser(self):
        for name, store, width in self.stores():
            with self.subTest(store=name, width=width):
                found = self.measured(self.page(store), width)
                self.assertEqual(found["bad"], [])
                self.assertGreater(found["texts"], 1)

    def stores(self):
        """Stores, and how wide the window is. A browser is slow to start, so they are few."""
        yield "new", made(self.folder / "new.store"), 420
        yield "examples", store_of_examples(self.folder / "examples.store"), 1280
        yield "planner", store_of_tutorial(self.folder / "planner.store", "planner"), 420
        store = made(self.folder / "random.store")
        run(store, "2024-01-01", Writer(3).script(160))
        yield "random", store, 1280

    def measured(self, page, width):
        shown = self.in_browser(page.replace("</body>", MEASURE + "</body>"), width)
        if not shown and not self.in_browser("<p>a page</p>", width):
            self.skipTest("the browser shows no page at all")
        return json.loads(unescape(re.search(r'<pre id="measured">(.*?)</pre>', shown, re.DOTALL)[1]))

    def in_browser(self, page, width):
        """A page as a browser has it in the end, or nothing where it does not come so far."""
        path = self.folder / "measured.html"
        path.write_text(page, encoding="utf-8")
        words = ["--headless", "--disable-gpu", "--hide-scrollbars", f"--user-data-dir={self.folder / 'browser'}", f"--window-size={width},900",
                 "--virtual-time-budget=3000", "--dump-dom"]
        # As root a browser does not start in a sandbox. The page is our own.
        words += ["--no-sandbox"] * (os.geteuid() == 0)
        try:
            return subprocess.run([BROWSER, *words, f"file://{path}"], capture_output=True, text=True, timeout=SECONDS).stdout.strip()
        except subprocess.TimeoutExpired:
            self.skipTest(f"the browser has not answered in {SECONDS} seconds")
