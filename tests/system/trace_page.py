#!/usr/bin/env python3
"""Opens tools/trace.html in a headless Chromium, without a network, and compares what it says with values worked out by hand.

    tests/system/trace_page.py [--picture FILE]

The job, the plan, the sources and the trace under tests/system/data/walk are the walk of docs/TREE.md, "Runs of the net"; the trace is
what `tools/try.sh simulate walk.job walk.plan 1 --trace` prints there. EXPECTED was written from the tables of that page. It needs
Debian's package chromium, of which it is the only client over a pipe, so no port is opened. It ends with status 1 at the first
answer that is not as it should be, and else prints how many it compared. With --picture it writes the picture of docs/TREE.md."""

import base64
import json
import os
import pathlib
import subprocess
import sys
import tempfile

ROOT = pathlib.Path(__file__).resolve().parents[2]
DATA = ROOT / "tests/system/data/walk"
SOURCES = ["a.csv", "b.csv", "c.csv"]

# By step what the page has to say; a worker's itags are seen and counted, and of `full` the counts are in the order inc@a, inc@b, read@c.
EXPECTED = {
    0: {
        "workers": {
            "root": {"hand": "Lending left and right", "lot": "left: 0 0 0 → 0 0 0\nright: 0 0 0 → 0 0 0", "target": "none"},
            "l": {"hand": "Empty", "lot": "none here", "target": "none"},
            "r": {"hand": "Empty", "lot": "none here", "target": "none"},
        },
        "edges": {"l": "Home", "r": "Home"},
        "itags": {"read@c": ["0", "0"], "inc@a": ["0", "0"], "inc@b": ["0", "0"]},
        "arrivals": {"inc@a": "0 of 3", "inc@b": "0 of 2", "read@c": "0 of 3"},
    },
    1: {"workers": {"root": {"hand": "Lending right"}}, "edges": {"l": "Lent ↓ 0 0 0 → 0 0 0", "r": "Home"}, "now": ["root"]},
    4: {
        "workers": {
            "root": {"hand": "Down", "lot": "none here"},
            "l": {"hand": "Whole", "lot": "0 0 0 → 0 0 0"},
            "r": {"hand": "Whole", "lot": "0 0 0 → 0 0 0"},
        },
        "edges": {"l": "Held", "r": "Held"},
        "now": ["r"],
    },
    12: {
        "workers": {
            "root": {"hand": "Down", "target": "event 0 of read@c, at 3"},
            "l": {"hand": "Whole", "lot": "0 0 0 → 1 0 0", "target": "none"},
            "r": {"hand": "Whole", "lot": "0 0 0 → 0 1 0"},
        },
        "edges": {"l": "Held", "r": "Asked ↓ event 0 of read@c, at 3"},
        "itags": {"read@c": ["1", "0"], "inc@a": ["3", "1"], "inc@b": ["1", "1"]},
        "arrivals": {"inc@a": "3 of 3", "inc@b": "1 of 2", "read@c": "1 of 3"},
        "words": "Step 12: root asks r (right) for event 0 of read@c, at 3.",
        "now": ["root"],
    },
    15: {"workers": {"r": {"hand": "Empty", "lot": "none here"}}, "edges": {"l": "Held", "r": "Given ↑ 0 0 0 → 0 1 0"}, "now": ["r"]},
    17: {
        "workers": {"root": {"hand": "Taking, right is back", "lot": "right: 0 0 0 → 0 1 0"}},
        "edges": {"l": "Asked ↓ event 0 of read@c, at 3", "r": "Home"},
        "now": ["root"],
    },
    19: {"workers": {"root": {"hand": "Whole", "lot": "0 0 0 → 1 1 0"}, "l": {"hand": "Empty"}}, "edges": {"l": "Home", "r": "Home"}},
    21: {
        "workers": {
            "root": {"hand": "Lending left and right", "lot": "left: 0 0 0 → 1 1 1\nright: 1 1 1 → 1 1 1", "target": "none"},
        },
        "itags": {"read@c": ["3", "1"], "inc@a": ["3", "1"], "inc@b": ["2", "1"]},
        "words": "Step 21: root handles event 0 of read@c, at 3, and forks its lot.",
    },
    24: {
        "workers": {"root": {"hand": "Lending right"}, "l": {"hand": "Whole", "lot": "0 0 0 → 2 1 1"}, "r": {"hand": "Empty"}},
        "edges": {"l": "Held", "r": "Home"},
        "itags": {"inc@a": ["3", "2"]},
        "words": "Step 24: l handles event 1 of inc@a, at 4.",
        "full": {"l": [["2", "0", "1", "0", "2"], ["0", "0", "1", "0", "1"], ["1", "0", "1", "0", "1"]]},
    },
    26: {"workers": {"root": {"target": "event 1 of read@c, at 5"}}, "edges": {"l": "Asked ↓ event 1 of read@c, at 5", "r": "Lent ↓ 1 1 1 → 1 1 1"}},
    32: {"workers": {"root": {"hand": "Whole", "lot": "0 0 0 → 2 1 1"}}},
    37: {
        "workers": {
            "root": {"hand": "Down", "target": "none"},
            "l": {"hand": "Whole", "lot": "0 0 0 → 2 1 2"},
            "r": {"hand": "Whole", "lot": "2 1 2 → 2 1 2"},
        },
        "edges": {"l": "Held", "r": "Held"},
        "itags": {"read@c": ["3", "2"], "inc@a": ["3", "2"], "inc@b": ["2", "1"]},
        "arrivals": {"inc@a": "3 of 3", "inc@b": "2 of 2", "read@c": "3 of 3"},
    },
}

SAYS = """(() => {
  const all = (s, of) => [...of.querySelectorAll(s)], cell = r => all('td', r).map(x => x.textContent);
  const workers = {}, itags = {}, edges = {}, arrivals = {};
  for (const w of all('[data-worker]', document)) {
    workers[w.dataset.worker] = Object.fromEntries(all('[data-part]', w).map(x => [x.dataset.part, x.textContent]));
    for (const r of all('[data-itag]', w)) itags[r.dataset.itag] = cell(r).slice(1);
  }
  for (const e of all('[data-edge]', document)) edges[e.dataset.edge] = e.textContent;
  for (const r of all('[data-arrivals]', document)) arrivals[r.dataset.arrivals] = cell(r)[2];
  return {workers, itags, edges, arrivals, words: document.getElementById('now').textContent, place: document.getElementById('place').textContent,
    now: all('.worker.now', document).map(x => x.dataset.worker), fault: document.getElementById('fault').textContent,
    note: document.getElementById('note').textContent, full: all('#full tr', document).slice(1).map(r => cell(r).slice(2)),
    lines: all('#lines li[aria-current]', document).map(x => x.textContent), images: document.images.length};
})()"""

compared = 0


def same(what, got, wanted):
    global compared
    compared += 1
    if got != wanted:
        sys.exit(f"{what}: the page says {got!r}, and it should be {wanted!r}")


class Browser:
    """A headless Chromium that is spoken to over two pipes."""

    def __init__(self, folder):
        inner_in, self.out = os.pipe()
        self.inp, inner_out = os.pipe()
        program = os.environ.get("CHROMIUM", "chromium")
        words = [program, "--headless=new", "--no-sandbox", "--disable-gpu", "--disable-dev-shm-usage", "--remote-debugging-pipe",
                 f"--user-data-dir={folder}", "--no-first-run", "--disable-extensions", "--disable-background-networking", "about:blank"]

        def pipes():
            # The two ends may have the numbers 3 and 4 themselves, so both are moved away first.
            source, target = os.dup(inner_in), os.dup(inner_out)
            source, target = (os.dup(source), os.dup(target)) if min(source, target) < 5 else (source, target)
            os.dup2(source, 3)
            os.dup2(target, 4)

        self.process = subprocess.Popen(words, preexec_fn=pipes, close_fds=False, stdout=subprocess.DEVNULL, stderr=subprocess.DEVNULL)
        os.close(inner_in)
        os.close(inner_out)
        self.rest, self.number, self.session, self.seen = b"", 0, None, []
        pages = self.call("Target.getTargets")["targetInfos"]
        page = next(p["targetId"] for p in pages if p["type"] == "page")
        self.session = self.call("Target.attachToTarget", targetId=page, flatten=True)["sessionId"]
        for domain in ("Page", "Runtime", "DOM", "Network"):
            self.call(domain + ".enable")
        self.call("Network.emulateNetworkConditions", offline=True, latency=0, downloadThroughput=-1, uploadThroughput=-1)

    def message(self):
        while b"\0" not in self.rest:
            part = os.read(self.inp, 1 << 16)
            if not part:
                sys.exit("the browser ended")
            self.rest += part
        one, self.rest = self.rest.split(b"\0", 1)
        return json.loads(one)

    def call(self, method, **words):
        self.number += 1
        asked = {"id": self.number, "method": method, "params": words}
        if self.session:
            asked["sessionId"] = self.session
        os.write(self.out, json.dumps(asked).encode() + b"\0")
        while True:
            got = self.message()
            if got.get("id") == self.number:
                if "error" in got:
                    sys.exit(f"{method}: {got['error']}")
                return got["result"]
            self.seen.append(got)
            if got.get("method") == "Runtime.exceptionThrown":
                sys.exit(f"the page failed: {json.dumps(got['params'])[:900]}")

    def run(self, text):
        got = self.call("Runtime.evaluate", expression=text, returnByValue=True, awaitPromise=True)
        if "exceptionDetails" in got:
            sys.exit(f"{text[:200]}: {got['exceptionDetails']}")
        return got["result"].get("value")

    def open(self):
        self.call("Page.navigate", url=(ROOT / "tools/trace.html").as_uri())
        self.until("document.readyState === 'complete' && document.querySelector('[data-file=job]') !== null")

    def until(self, text):
        self.run(f"(async () => {{ const end = Date.now() + 20000; while (!({text})) {{ if (Date.now() > end) throw new Error('waited in vain');"
                 " await new Promise(r => setTimeout(r, 10)); } })()")

    def give(self, key, path):
        """Chooses a file in the page's own input for it."""
        top = self.call("DOM.getDocument")["root"]["nodeId"]
        node = self.call("DOM.querySelector", nodeId=top, selector=f'input[data-file="{key}"]')["nodeId"]
        self.call("DOM.setFileInputFiles", nodeId=node, files=[str(path)])

    def paste(self, key, text):
        place = json.dumps(f'textarea[data-text="{key}"]')
        self.run(f"(() => {{ const a = document.querySelector({place}); a.value = {json.dumps(text)}; a.dispatchEvent(new Event('change')); }})()")

    def key(self, name):
        codes = {"ArrowLeft": 37, "ArrowRight": 39, "Home": 36, "End": 35, " ": 32}
        for kind in ("keyDown", "keyUp"):
            self.call("Input.dispatchKeyEvent", type=kind, key=name, code=name if name != " " else "Space", windowsVirtualKeyCode=codes[name])

    def close(self):
        os.close(self.out)
        self.process.terminate()
        self.process.wait()


def choose_walk(page):
    page.open()
    page.give("job", DATA / "walk.job")
    page.until("document.querySelector('[data-file=\"source c.csv\"]') !== null")
    page.give("plan", DATA / "walk.plan")
    for name in SOURCES:
        page.give("source " + name, DATA / name)
    page.give("trace", DATA / "seed1.trace")
    page.until("document.getElementById('place').textContent === 'step 0 of 37' && document.getElementById('note').textContent === ''")
    page.run("document.activeElement.blur()")


def compare(at, says):
    for part, wanted in EXPECTED.get(at, {}).items():
        if part in ("words", "now"):
            same(f"step {at}, {part}", says[part], wanted)
        elif part == "workers":
            for worker, fields in wanted.items():
                for field, text in fields.items():
                    same(f"step {at}, {field} of {worker}", says[part][worker][field], text)
        elif part != "full":
            for name, text in wanted.items():
                same(f"step {at}, {part} of {name}", says[part][name], text)


def walk(page):
    trace = (DATA / "seed1.trace").read_text().splitlines()
    same("lines of the stored trace", len(trace), 37)
    choose_walk(page)
    before = []
    for at in range(38):
        says = page.run(SAYS)
        same("place", says["place"], f"step {at} of 37")
        if at:
            same(f"step {at}, the line", says["lines"], [f"{at}  {trace[at - 1]}  ◀"])
        for worker, rows in EXPECTED.get(at, {}).get("full", {}).items():
            page.run(f"document.querySelector('[data-worker={worker}]').click()")
            same(f"step {at}, {worker} in full", page.run(SAYS)["full"], rows)
            page.run("document.querySelector('[data-worker=root]').click(); document.activeElement.blur()")
        compare(at, says)
        before.append(says)
        page.key("ArrowRight")
    same("on at the end", page.run(SAYS), before[37])
    for at in range(36, -1, -1):
        page.key("ArrowLeft")
        same(f"back at step {at}", page.run(SAYS), before[at])
    page.key("End")
    same("the key End", page.run(SAYS), before[37])
    page.key("Home")
    same("the key Home", page.run(SAYS), before[0])
    page.run("document.getElementById('next').click(); document.getElementById('next').click(); document.getElementById('back').click();"
             "document.activeElement.blur()")
    same("the buttons", page.run(SAYS), before[1])
    page.run("(() => { const s = document.getElementById('slider'); s.value = 21; s.dispatchEvent(new Event('input')); })()")
    page.until("document.getElementById('place').textContent === 'step 21 of 37'")
    same("the slider", page.run(SAYS), before[21])
    page.run("document.getElementById('speed').value = '20'")
    page.key(" ")
    page.until("document.getElementById('place').textContent === 'step 37 of 37'")
    same("played to the end", page.run(SAYS), before[37])


def broken(page):
    """Each of these traces stops before the line that is named, with the reason."""
    good = (DATA / "seed1.trace").read_text().splitlines()
    for at, line, reason in (
        (5, "arrive  1", "bad line"), (5, "", "bad line"), (5, "handle 03", "bad line"), (5, "lend 0 up", "bad line"),
        (3, "hold 7", "there is no worker 7"), (3, "arrive 9", "there is no itag 9"), (4, "lend 1 left", "l has no children"),
        (2, "hold 2", "the edge above it is Home, not Lent"), (1, "handle 0", "its hand is Lending, not Whole"),
        (16, "take 0 left", "the edge is Held, not Given"), (5, "handle 1", "no next event that it may take yet"),
        (9, "arrive 0\narrive 0\narrive 0", "all items of inc@a have arrived"),
    ):
        page.paste("trace", "\n".join(good[: at - 1] + [line] + good[at:]) + "\n")
        stops = at + line.count("\n")
        page.until(f"document.getElementById('fault').textContent.startsWith('trace line {stops}: ')")
        says = page.run(SAYS)
        if reason not in says["fault"]:
            sys.exit(f"{line!r} at {at}: the page says {says['fault']!r}, and the reason is: {reason}")
        same(f"{line!r} at {at}, where the picture stops", says["place"], f"step 0 of {stops - 1}")
    page.paste("trace", "\n".join(good[:20]) + "\n")
    page.until("document.getElementById('note').textContent === 'The trace ends before the run does: steps are left.'")
    page.paste("trace", "<img src=x onerror=alert(1)>\n")
    page.until("document.getElementById('fault').textContent.startsWith('trace line 1: bad line')")
    same("elements from the text of a trace", page.run(SAYS)["images"], 0)


def without_sources(page):
    page.open()
    for key in ("job", "plan"):
        page.paste(key, (DATA / f"walk.{key}").read_text())
    page.paste("trace", (DATA / "seed1.trace").read_text())
    page.until("document.getElementById('place').textContent === 'step 0 of 37'")
    page.run("document.activeElement.blur()")
    page.key("End")
    says = page.run(SAYS)
    same("without sources, the end", [says["workers"]["l"]["lot"], says["workers"]["r"]["lot"]], ["0 0 0 → 2 2 1", "2 2 1 → 2 2 1"])
    same("without sources, counted", says["itags"], {"read@c": ["3", "2"], "inc@a": ["3", "2"], "inc@b": ["2", "1"]})


def dropped_and_pasted(page):
    """All files dropped at once, in an order in which the job is last; and three texts pasted beside any field."""
    texts = {name: (DATA / name).read_text() for name in ["seed1.trace", *SOURCES, "walk.plan", "walk.job"]}
    page.open()
    page.run(f"(() => {{ const d = new DataTransfer(), texts = {json.dumps(texts)}; for (const name in texts) d.items.add(new File([texts[name]], name));"
             " document.dispatchEvent(new DragEvent('drop', {dataTransfer: d, cancelable: true})); })()")
    page.until("document.getElementById('place').textContent === 'step 0 of 37'")
    page.run("document.activeElement.blur()")
    page.key("End")
    compare(37, page.run(SAYS))
    page.open()
    for name in ("walk.job", "walk.plan", "seed1.trace"):
        page.run(f"(() => {{ const d = new DataTransfer(); d.setData('text/plain', {json.dumps(texts[name])});"
                 " document.body.dispatchEvent(new ClipboardEvent('paste', {clipboardData: d, bubbles: true})); })()")
    page.until("document.getElementById('place').textContent === 'step 0 of 37'")


def long_trace(page):
    """A hundred thousand arrivals at a tree of 127 workers, most of them without an itag: reading, going far and back stay quick."""
    depth_six = []
    for n in range(127):
        kids = f" -> w{2 * n + 1} w{2 * n + 2}" if n < 63 else ""
        depth_six.append(f"node w{n}:" + (" inc, read" if n == 0 else "") + kids)
    page.open()
    page.paste("job", (DATA / "walk.job").read_text())
    page.paste("plan", "\n".join(depth_six) + "\n")
    page.paste("trace", "arrive 0\n" * 99_999 + "lend 0 left\n")
    page.until("document.getElementById('place').textContent === 'step 0 of 100000'")
    spent = page.run("(() => { const start = performance.now(); for (const to of [100000, 99999, 99998, 50000, 49999, 3, 100000, 0]) go(to);"
                     " go(99999); return performance.now() - start; })()")
    same("seen after 99,999 arrivals", page.run(SAYS)["itags"]["inc@a"], ["99999", "0 together"])
    if spent > 2000:
        sys.exit(f"nine moves in 100,000 steps took {spent:.0f} ms")


def picture(page, path):
    page.call("Emulation.setDeviceMetricsOverride", width=1000, height=760, deviceScaleFactor=1, mobile=False)
    page.call("Emulation.setEmulatedMedia", features=[{"name": "prefers-color-scheme", "value": "light"}])
    choose_walk(page)
    page.run("go(17)")
    shot = page.call("Page.captureScreenshot", format="png", captureBeyondViewport=False)
    pathlib.Path(path).write_bytes(base64.b64decode(shot["data"]))


def main():
    words = sys.argv[1:]
    if words and (len(words) != 2 or words[0] != "--picture"):
        sys.exit(__doc__)
    with tempfile.TemporaryDirectory(ignore_cleanup_errors=True) as folder:
        page = Browser(folder)
        try:
            if words:
                picture(page, words[1])
            else:
                for part in (walk, broken, without_sources, dropped_and_pasted, long_trace):
                    part(page)
                print(f"trace page: {compared} answers are as they should be")
        finally:
            page.close()


main()
