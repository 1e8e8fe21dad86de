"""A headless Chromium that opens a page and reports its text, the names in the accessibility tree, and the contrast of words."""
import json
import os
import pathlib
import re
import subprocess
import tempfile

ARGUMENTS = ["--headless=new", "--no-sandbox", "--disable-gpu", "--remote-debugging-pipe"]

# The least contrast (WCAG 2.2, 1.4.3) of words: of a cell on that cell, and of others on the page.
CONTRAST = """(() => {
  const parts = color => color.match(/[0-9.]+/g).slice(0, 3).map(part => part / 255)
    .map(part => part <= 0.04045 ? part / 12.92 : ((part + 0.055) / 1.055) ** 2.4);
  const light = color => parts(color).reduce((sum, part, k) => sum + part * [0.2126, 0.7152, 0.0722][k], 0) + 0.05;
  const style = element => getComputedStyle(element);
  const ratio = (word, ground) => Math.max(light(word), light(ground)) / Math.min(light(word), light(ground));
  const paper = style(document.body || document.documentElement).backgroundColor;
  if (paper === 'rgba(0, 0, 0, 0)') return 0;
  const ground = text => { const cell = text.closest('a'); return cell ? style(cell.querySelector('rect')).fill : paper; };
  return Math.min(...[...document.querySelectorAll('svg text')].map(text => ratio(style(text).fill, ground(text))),
    ...[...document.querySelectorAll('h1,h2,th,td,td a')].map(element => ratio(style(element).color, paper)));
})()"""

# What words of pictures aren't where they should be: in their cell, or in the picture and apart from other names.
MISPLACED = """(() => {
  const found = [], box = element => element.getBoundingClientRect();
  const within = (a, b) => a.left >= b.left - 1 && a.right <= b.right + 1 && a.top >= b.top - 3 && a.bottom <= b.bottom + 3;
  for (const text of document.querySelectorAll('svg a text'))
    if (text.textContent.trim() && !within(box(text), box(text.closest('a').querySelector('rect')))) found.push('out of its cell: ' + text.textContent);
  for (const picture of document.querySelectorAll('svg.m')) {
    const names = [...picture.querySelectorAll('text.o')];
    names.forEach((name, k) => {
      if (!within(box(name), box(picture))) found.push('out of the picture: ' + name.textContent);
      for (const other of names.slice(k + 1))
        if (Math.abs(other.y.baseVal[0].value - name.y.baseVal[0].value) < 12) found.push('on one another: ' + name.textContent + ', ' + other.textContent);
    });
    const ruler = [...picture.querySelectorAll('text.r')].filter(text => text.textContent.length == 1);
    for (const bracket of picture.querySelectorAll('rect.o'))
      if (ruler.some(text => box(text).bottom > box(bracket).top + 1)) found.push('a bracket on the ruler');
  }
  return JSON.stringify(found);
})()"""

MEDIA = {
    "light": {"media": "screen", "features": [{"name": "prefers-color-scheme", "value": "light"}]},
    "dark": {"media": "screen", "features": [{"name": "prefers-color-scheme", "value": "dark"}]},
    "print": {"media": "print", "features": [{"name": "prefers-color-scheme", "value": "light"}]},
}


class Browser:
    """A browser in which a page is open; it is spoken to over a pipe, each message with a 0 after it."""

    def __init__(self, program, page, form="html"):
        self.folder = tempfile.TemporaryDirectory(ignore_cleanup_errors=True)
        path = pathlib.Path(self.folder.name, "page." + form)
        path.write_text(page)
        reads, self.asks = os.pipe()
        self.answers, writes = os.pipe()
        words = [program, *ARGUMENTS, "--user-data-dir=" + self.folder.name + "/user", "file://%s" % path]
        joined = 'exec "$0" "$@" 3<&%d 4>&%d' % (reads, writes)
        self.work = subprocess.Popen(["bash", "-c", joined, *words], pass_fds=(reads, writes), stderr=subprocess.DEVNULL)
        os.close(reads)
        os.close(writes)
        self.came, self.count, self.session = b"", 0, None
        self.session = self.attached(path)

    def __enter__(self):
        return self

    def __exit__(self, *_):
        self.session = None
        try:
            self.ask("Browser.close")
            self.work.wait(timeout=20)
        except (EOFError, subprocess.TimeoutExpired):
            self.work.kill()
            self.work.wait()
        os.close(self.asks)
        os.close(self.answers)
        self.folder.cleanup()

    def message(self):
        while b"\0" not in self.came:
            more = os.read(self.answers, 65536)
            if not more:
                raise EOFError("the browser ended")
            self.came += more
        one, self.came = self.came.split(b"\0", 1)
        return json.loads(one)

    def ask(self, method, **words):
        self.count += 1
        asked = {"id": self.count, "method": method, "params": words}
        if self.session:
            asked["sessionId"] = self.session
        os.write(self.asks, json.dumps(asked).encode() + b"\0")
        while True:
            told = self.message()
            if told.get("id") == self.count:
                return told["result"]

    def attached(self, path):
        """The session of the page, once it is there and read to its end."""
        pages = []
        while not pages:
            pages = [t for t in self.ask("Target.getTargets")["targetInfos"] if t["type"] == "page" and t["url"].endswith(path.name)]
        self.session = self.ask("Target.attachToTarget", targetId=pages[0]["targetId"], flatten=True)["sessionId"]
        while self.value("document.readyState + location.protocol") != "completefile:":
            pass
        return self.session

    def value(self, script):
        return self.ask("Runtime.evaluate", expression=script)["result"]["value"]

    def text(self):
        """What headings, titles and cells of tables begin with."""
        tree = self.value("document.documentElement.outerHTML")
        return re.findall(r"<(?:h2|title|td)[^>]*>([^<]*)<", tree)

    def names(self, role):
        """The names of all parts of a role, such as links, as a screen reader gets them."""
        self.ask("Accessibility.enable")
        nodes = self.ask("Accessibility.getFullAXTree")["nodes"]
        return [node["name"]["value"] for node in nodes if not node["ignored"] and node["role"]["value"] == role]

    def misplaced(self):
        return json.loads(self.value(MISPLACED))

    def contrast(self, medium):
        self.ask("Emulation.setEmulatedMedia", **MEDIA[medium])
        return self.value(CONTRAST)
