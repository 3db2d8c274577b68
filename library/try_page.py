#!/usr/bin/env python3
"""Tries the page in Chromium without a window: try_page.py PROGRAM [FOLDER]

What its module prints is what the program prints, over the examples, drills and saved runs, and what the cases of crates/cases say, but for those
with more than a million bytes. At each watermark of each example the page shows the store, the states, the side output and the records that the
program has there. With a folder it also puts pictures of the page there.
"""
import base64
import json
import os
import pathlib
import re
import subprocess
import sys
import tempfile
import time

import build_page

HERE = pathlib.Path(__file__).resolve().parent
sys.path.insert(0, str(HERE / "python/tests"))
import cases  # noqa: E402

MOST_BYTES = 1_000_000
MODULE = HERE / "out/page/wdq.wasm"
ALL = ["--export", "--state", "--side"]
BROWSER = ["chromium", "--headless=new", "--no-sandbox", "--disable-gpu", "--hide-scrollbars", "--remote-debugging-pipe"]
SECONDS = 100
# What is tried in the page, behind its own script. It writes how each went into the element `tried`.
TRIAL = r"""
const tried = document.createElement("pre");
tried.id = "tried";
document.body.append(tried);
globalThis.tried = tried;
const judge = (name, is_right) => tried.append(`${is_right ? "same" : "DIFFERS"} ${name}\n`);
const trial = JSON.parse(by("trial").textContent);
for (const it of trial.runs) {
  const left = run(it.words, it.lines, it.pages, it.given);
  const snapshot = new TextDecoder().decode(left.snapshot);
  judge(it.words.join(" "), left.status === it.status && left.message === it.message && left.printed === it.printed && snapshot === it.snapshot);
}
const bytes = (text) => Uint8Array.from(atob(text), (letter) => letter.charCodeAt(0));
for (const it of trial.cases) {
  const left = run(it.words, bytes(it.lines), it.pages.map(([revision, page]) => [revision, bytes(page)]), bytes(it.given));
  judge(it.name, `${left.status} ${left.message}`.trim() === it.status && left.printed === text_of(bytes(it.printed)));
}
by("short").checked = false;
for (const it of trial.views) {
  take_example(it.name, it.position);
  for (const [id, text] of Object.entries(it.shown)) judge(`${it.name} at ${it.position}: ${id}`, by(id).textContent === text);
}
judge("a short name", (by("short").checked = true, short("<http://www.wikidata.org/entity/Q1>") === "wd:Q1"));
const pause = () => new Promise((done) => setTimeout(done, 500));
const dropped = (...files) => {
  const data = new DataTransfer();
  files.forEach(([name, ...parts]) => data.items.add(new File(parts, name)));
  return data;
};
take_example("story");
document.dispatchEvent(new DragEvent("drop", { dataTransfer: dropped(["mine.txt", '{"watermark":"2024-05-01T10:00:08Z"}\nno line\n'], ["5.json", "{}"]) }));
await pause();
judge("dropped files", given.pages.size === 1 && given.pages.get("5") === "{}" && by("message").textContent.endsWith("wdq: line 2: NotJson"));
by("files").files = dropped(["7.json", "[]"], ["bad.jsonl", new Uint8Array([255])]).files;
by("files").dispatchEvent(new Event("change"));
await pause();
judge("chosen files", given.pages.size === 2 && given.pages.get("7") === "[]" && by("message").textContent === "Not UTF-8, so not taken: bad.jsonl");
const enter = (id, text) => {
  by(id).value = text;
  by(id).dispatchEvent(new Event("input"));
};
take_example("story");
by("revision").value = "8";
by("add").click();
enter("page", '{"entity":"Q5","redirect":"Q1"}');
await pause();
judge("a page that is entered", by("store").textContent.includes("wd:Q5 owl:sameAs wd:Q1") && by("side").textContent === "late open Q1 edit 4 1714557604000000\n");
enter("slider", 1);
judge("the slider", by("place").textContent.startsWith("After the watermark 2024-05-01T10:00:08Z in line 3") && by("numbers").querySelectorAll(".taken").length === 3);
enter("events", '{"watermark":"2024-05-01T10:00:08Z"}\nno line\n');
enter("options", "--max-terms 1000");
await pause();
judge("a refused line", by("numbers").querySelector(".bad").textContent === "2" && by("command").textContent.endsWith("--side --max-terms 1000"));
try {
  run(["replay"], { length: 2 ** 41 });
} catch (error) {
  judge("a call without memory", error.message === "wdq: out of memory" && run(["drill", "--size", "10"], "").status === 0);
}
tried.append("all was tried\n");
"""


def call(program, words, lines, pages, given=""):
    """Runs the program, and returns what it was given and left."""
    with tempfile.TemporaryDirectory() as room:
        for revision, page in pages:
            pathlib.Path(room, f"{revision}.json").write_text(page, encoding="utf-8")
        pathlib.Path(room, "given").write_text(given, encoding="utf-8")
        ran = subprocess.run([program, *words], input=lines.encode(), capture_output=True, cwd=room, check=False)
        kept = pathlib.Path(room, "kept")
        snapshot = kept.read_text(encoding="utf-8") if kept.exists() else ""
    left = {"status": ran.returncode, "message": ran.stderr.decode().rstrip("\n"), "printed": ran.stdout.decode(), "snapshot": snapshot}
    return {"words": words, "lines": lines, "pages": pages, "given": given, **left}


def runs_of(program, examples):
    """Yields the runs in which the module and the program are compared."""
    for it in examples:
        lines, pages = it["lines"], it["pages"]
        half = "".join(lines.splitlines(True)[:3])
        saved = call(program, ["replay", "--save", "kept"], half, pages)
        patches = call(program, ["patches"], lines, pages)
        yield from (call(program, ["replay", *ALL], lines, pages), saved, patches)
        yield call(program, ["replay", "--resume", "given", *ALL], lines[len(half) :], pages, saved["snapshot"])
        yield call(program, ["follow", "--export"], patches["printed"], [])
        yield call(program, ["split", "--route", "people:Q5"], lines, pages)
        yield call(program, ["replay"], lines + "{}\n", pages)
    yield from (call(program, words, "", []) for words in (["replay", "--what"], ["drill", "--size", "200"], ["drill", "--size", "2000"]))


def text_of_bytes(it):
    return base64.b64encode(it).decode()


def small_cases():
    """Yields the cases that have no more than so many bytes, each with what it must show."""
    for it in cases.cases():
        if sum(map(len, (it.lines, it.resumed, it.printed, *it.pages.values()))) <= MOST_BYTES:
            pages = [[str(revision), text_of_bytes(page)] for revision, page in it.pages_there()]
            texts = {"lines": text_of_bytes(it.lines), "given": text_of_bytes(it.resumed), "printed": text_of_bytes(it.printed)}
            yield {"name": it.name, "words": it.words, "pages": pages, "status": it.status, **texts}


def parts_of(printed, head):
    """Returns the lines of the sections whose head is like this, each without its head."""
    lines = printed.split("\n")
    for number, line in enumerate(lines):
        found = re.fullmatch(head, line)
        if found:
            yield lines[number + 1 :][: sum(abs(int(count)) for count in found.groups())]


def text_of(lines, nothing):
    return "".join(f"{line}\n" for line in lines or [nothing])


def shown_at(program, example, front, words, before):
    """Returns what the page has to show behind a front of the events, of whose records so many came before, and how many there are now."""
    left = call(program, ["replay", *ALL, *words], front, example["pages"])["printed"]
    whole = call(program, ["replay", *ALL], example["lines"], example["pages"])["printed"]
    records = list(parts_of(call(program, ["patches", *words], front, example["pages"])["printed"], r"# patch \d+ \+(\d+) (-\d+)"))
    changed = [line for number, record in enumerate(records[before:], before + 1) for line in [f"record {number}", *record]]
    shown = {
        "store": text_of(list(parts_of(left, r"# export: (\d+) triples"))[0], "none"),
        "states": text_of(re.findall("(?m)^# state (.*)$", left), "none"),
        "side": text_of(re.findall("(?m)^# side (.*)$", left), "nothing"),
        "records": text_of(changed, "no change since the watermark before"),
        "printed": text_of(whole.split("\n")[:-1], "nothing"),
    }
    return shown, len(records)


def views_of(program, examples):
    """Yields what the page has to show at each watermark of each example, and at its end."""
    for it in examples:
        lines, before = it["lines"].splitlines(True), 0
        marks = [number for number, line in enumerate(lines, 1) if "watermark" in json.loads(line)]
        for position, mark in enumerate([*marks, len(lines)], 1):
            words = ["--save", "kept"] if position <= len(marks) else []
            shown, before = shown_at(program, it, "".join(lines[:mark]), words, before)
            yield {"name": it["name"], "position": position, "shown": shown}


class Browser:
    """Chromium without a window, which takes and gives messages by two pipes."""

    def __init__(self, room):
        taken, self.to = os.pipe()
        self.of, given = os.pipe()
        words = [*BROWSER, f"--user-data-dir={room}/profile"]
        # It takes messages by its file 3, and gives them by 4.
        place = ["bash", "-c", f'exec "$@" 3<&{taken} 4>&{given}', "bash"]
        with open(f"{room}/log", "wb") as log:
            self.process = subprocess.Popen([*place, *words], pass_fds=(taken, given), stdout=log, stderr=log)
        os.close(taken)
        os.close(given)
        self.left, self.number, self.session = b"", 0, {}

    def call(self, method, **given):
        self.number += 1
        os.write(self.to, json.dumps({"id": self.number, "method": method, "params": given, **self.session}).encode() + b"\0")
        while True:
            message = json.loads(self.next_message())
            if message.get("id") == self.number:
                return message["result"]

    def next_message(self):
        while b"\0" not in self.left:
            some = os.read(self.of, 1 << 20)
            if not some:
                sys.exit("Chromium ended")
            self.left += some
        message, _, self.left = self.left.partition(b"\0")
        return message

    def open(self, page):
        self.session = {}
        target = self.call("Target.createTarget", url=f"file://{page}")["targetId"]
        self.session = {"sessionId": self.call("Target.attachToTarget", targetId=target, flatten=True)["sessionId"]}

    def value_of(self, expression):
        """Waits until an expression has a value that counts as true, and returns it."""
        until = time.monotonic() + SECONDS
        while time.monotonic() < until:
            result = self.call("Runtime.evaluate", expression=expression, returnByValue=True)["result"]
            if result.get("value"):
                return result["value"]
            time.sleep(0.1)
        sys.exit(f"the page has no {expression} after {SECONDS} seconds: " + self.value_of("document.body.innerText")[-1000:])

    def draw(self, width, folder):
        self.call("Emulation.setDeviceMetricsOverride", width=width, height=900, deviceScaleFactor=1, mobile=width < 800)
        picture = self.call("Page.captureScreenshot", captureBeyondViewport=True)["data"]
        pathlib.Path(folder, f"page-{width}.png").write_bytes(base64.b64decode(picture))

    def end(self):
        self.process.terminate()
        self.process.wait()
        while os.read(self.of, 1 << 20):
            pass


def try_page(browser, program, page, examples):
    """Tries the page, and returns how each thing went, a line each."""
    tried = {"runs": list(runs_of(program, examples)), "cases": list(small_cases()), "views": list(views_of(program, examples))}
    trial = json.dumps(tried).replace("<", "\\u003c")
    text = build_page.build(MODULE, "tried", TRIAL).replace("</head>", f'</head><script type="application/json" id="trial">{trial}</script>')
    page.write_text(text, encoding="utf-8")
    browser.open(page)
    return browser.value_of("globalThis.tried?.textContent.endsWith('tried\\n') && tried.textContent")


def main(program, folder=None):
    # Parts of Chromium may still write into its profile when it has ended.
    with tempfile.TemporaryDirectory(ignore_cleanup_errors=True) as room:
        page, browser = pathlib.Path(room, "wdq.html"), Browser(room)
        try:
            told = try_page(browser, os.path.abspath(program), page, [build_page.example(name) for name in build_page.NAMES])
            if folder:
                page.write_text(build_page.build(MODULE, "tried"), encoding="utf-8")
                browser.open(f"{page}#story/1")
                browser.value_of("globalThis.wdq !== undefined")
                for width in (1280, 400):
                    browser.draw(width, folder)
        finally:
            browser.end()
    differing = re.findall("(?m)^DIFFERS.*$", told)
    if differing:
        sys.exit("\n".join(differing))
    print(f"the page is as it should be in {len(re.findall('(?m)^same ', told))} things")


if __name__ == "__main__":
    main(*sys.argv[1:])
