"""Pages in a browser without a window: the slider moves, and no text lies outside or on other text."""
import functools
import html
import json
import re
import tempfile
import unittest
from pathlib import Path

from routing_tools import browser
from support import EXAMPLES, WithProgram, command

SIZE = "1200,900"

# Moves the slider over all lines, with each choice of routes, and looks at all text and at the drawing each time.
LOOK = """
<script>
window.addEventListener("load", () => {
  const complaints = [], seen = {};
  function boxes() {
    const found = [], walker = document.createTreeWalker(document.body, NodeFilter.SHOW_TEXT);
    while (walker.nextNode()) {
      const node = walker.currentNode;
      if (!node.textContent.trim() || ["SCRIPT", "STYLE", "OPTION", "TITLE", "title"].includes(node.parentNode.nodeName)) continue;
      const range = document.createRange();
      range.selectNodeContents(node);
      for (const box of range.getClientRects()) if (box.width > 1 && box.height > 1) found.push([box, node.textContent.trim().slice(0, 30)]);
    }
    return found;
  }
  function look(where) {
    const found = boxes(), wide = document.documentElement.clientWidth;
    if (document.documentElement.scrollWidth > wide + 1) complaints.push(where + ": the page is wider than its window");
    found.forEach(([box, text], i) => {
      if (box.left < -1 || box.right > wide + 1 || box.top + scrollY < -1) complaints.push(where + ": outside: " + text);
      for (let k = i + 1; k < found.length; k++) {
        const [other, words] = found[k];
        const across = Math.min(box.right, other.right) - Math.max(box.left, other.left);
        const down = Math.min(box.bottom, other.bottom) - Math.max(box.top, other.top);
        if (across > 2 && down > 3) complaints.push(where + ": " + text + " on " + words);
      }
    });
  }
  const line = document.getElementById("line"), epoch = document.getElementById("epoch");
  const set = (it, value) => { it.value = value; it.dispatchEvent(new Event("input")); };
  const every = Math.max(1, Math.floor(+line.max / 12));
  for (const choice of [...epoch.options].map(it => it.value)) {
    set(epoch, choice);
    for (let place = 0; place <= +line.max; place += every) {
      set(line, place);
      look(choice + " " + place);
      seen[choice + " " + place] = [document.getElementById("now").textContent, document.getElementById("routes").textContent];
    }
  }
  set(epoch, "live");
  set(line, line.max);
  const hop = document.getElementById("hop"), walks = [];
  for (let place = 0; place <= +hop.max; place++) { set(hop, place); walks.push(document.getElementById("walk").textContent); }
  const told = document.createElement("pre");
  told.id = "told";
  told.textContent = JSON.stringify({ complaints: complaints.slice(0, 20), seen, walks, drawn: document.querySelectorAll("#over path").length });
  document.body.appendChild(told);
});
</script>
"""


@functools.lru_cache(None)
def cause_of_none():
    """Why there is no browser to test with, or None: a plain page is opened once."""
    if not browser.find():
        return "no Chromium (Debian: chromium)"
    with tempfile.TemporaryDirectory() as folder:
        plain = Path(folder) / "plain.html"
        plain.write_text("<p id=there>there</p>")
        starts = "there" in browser.opened(plain, folder, SIZE, seconds=60)
        return None if starts else "Chromium does not start here, or takes more than a minute"


class Pages(WithProgram):
    def setUp(self):
        super().setUp()
        cause = cause_of_none()
        if cause:
            self.skipTest(cause)

    def looked_at(self, schedule, *more):
        page = self.folder / "page.html"
        code, _, said = self.command("view", schedule, "-o", page, *more)
        self.assertEqual(code, 0, said)
        page.write_text(page.read_text().replace("</body>", LOOK + "</body>"))
        text = browser.opened(page, self.folder, SIZE)
        if not text:
            self.skipTest("Chromium did not end in time")
        found = re.search(r'<pre id="told">(.*?)</pre>', text, re.S)
        self.assertTrue(found, "the page did not come to its end")
        return json.loads(html.unescape(found.group(1)))

    def shot(self, page):
        """The first bytes of a screenshot of the page."""
        made = self.folder / "shot.png"
        if not browser.picture(page, self.folder, SIZE, made):
            self.skipTest("Chromium did not end in time")
        return made.read_bytes()[:4]

    def test_detour(self):
        told = self.looked_at(EXAMPLES / "detour.schedule", "--each-delivery")
        self.assertEqual(told["complaints"], [])
        self.assertEqual(told["walks"][-1], "3 2 2 3 4 6 5 1 delivered")
        self.assertEqual(told["walks"][0], "3 ..")
        self.assertIn("at the start", told["seen"]["live 0"][0])
        self.assertTrue(any("3 4 2 1" in routes for _, routes in told["seen"].values()), "the loop is never shown")
        self.assertTrue(any(key.startswith("1 ") for key in told["seen"]))
        self.assertEqual(self.shot(self.folder / "page.html"), b"\x89PNG")

    def test_64_nodes(self):
        code, out, _ = command("network", "--generate", "64", "--announce", "60", "--announce", "7")
        self.assertEqual(code, 0)
        more = "snap 1\ndrain 1000000\nctl all 16384\npropose 1 1\nctl all 16384\ninject 1 33 10.0.0.0/16\nhop 1 100\nfail 2 15\nnotice 2 15\nnotice 15 2\ndrain 9\n"
        told = self.looked_at(self.write("large.schedule", out + more))
        self.assertEqual(told["complaints"], [])
        self.assertGreater(told["drawn"], 60)
        self.assertEqual(self.shot(self.folder / "page.html"), b"\x89PNG")

    def test_png(self):
        made = self.folder / "made.png"
        code, _, said = self.command("view", EXAMPLES / "detour.schedule", "--png", made)
        if code == 4:
            self.skipTest(f"no PNG: {said.strip()}")
        self.assertEqual((code, made.read_bytes()[:4]), (0, b"\x89PNG"), said)


if __name__ == "__main__":
    unittest.main()
