// The page: it cuts the events at their watermarks, makes a run up to the one that the slider is at, and shows what comes out.
const by = (id) => document.getElementById(id);
const examples = JSON.parse(by("examples").textContent);
const ALL = ["--export", "--state", "--side"];
const MOST_LINES = 3000;
const PREFIXES = Object.entries({
  wds: "http://www.wikidata.org/entity/statement/",
  wd: "http://www.wikidata.org/entity/",
  wdv: "http://www.wikidata.org/value/",
  wdref: "http://www.wikidata.org/reference/",
  wdt: "http://www.wikidata.org/prop/direct/",
  psv: "http://www.wikidata.org/prop/statement/value/",
  ps: "http://www.wikidata.org/prop/statement/",
  pqv: "http://www.wikidata.org/prop/qualifier/value/",
  pq: "http://www.wikidata.org/prop/qualifier/",
  prv: "http://www.wikidata.org/prop/reference/value/",
  pr: "http://www.wikidata.org/prop/reference/",
  p: "http://www.wikidata.org/prop/",
  wikibase: "http://wikiba.se/ontology#",
  schema: "http://schema.org/",
  rdf: "http://www.w3.org/1999/02/22-rdf-syntax-ns#",
  rdfs: "http://www.w3.org/2000/01/rdf-schema#",
  owl: "http://www.w3.org/2002/07/owl#",
  skos: "http://www.w3.org/2004/02/skos/core#",
  prov: "http://www.w3.org/ns/prov#",
  ontolex: "http://www.w3.org/ns/lemon/ontolex#",
  dct: "http://purl.org/dc/terms/",
  xsd: "http://www.w3.org/2001/XMLSchema#",
  geo: "http://www.opengis.net/ont/geosparql#",
});

let run;
let given = { lines: "", pages: new Map() };
let chosen = "";
let marks = [];
let left = new Map();

// --- What a run leaves ---

// Gives the watermarks among the lines: the number of the line, its text, and where it ends.
function watermarks(lines) {
  const found = [];
  let end = 0;
  lines.split("\n").forEach((line, index) => {
    end += line.length + 1;
    try {
      const time = JSON.parse(line).watermark;
      if (time !== undefined) found.push({ number: index + 1, time: String(time), end });
    } catch {
      // Such a line is no watermark, and the run says why.
    }
  });
  return found;
}

const option_words = () => by("options").value.split(/\s+/).filter(Boolean);

// Gives what a command leaves up to a watermark, counted from 1, or to the end. The snapshot that --save asks for is why the end of a front isn't the
// end of the events.
function left_at(position, ...command) {
  const mark = marks[position - 1];
  const name = `${position} ${command[0]}`;
  if (!left.has(name)) {
    const lines = mark ? given.lines.slice(0, mark.end) : given.lines;
    const found = run([...command, ...option_words(), ...(mark ? ["--save", "kept"] : [])], lines, [...given.pages]);
    left.set(name, { ...found, ...sections(found.printed) });
  }
  return left.get(name);
}

const replay_at = (position) => left_at(position, "replay", ...ALL);
const records_at = (position) => (position ? left_at(position, "patches").records : []);

// Gives the sections of what was printed.
function sections(printed) {
  const found = { records: [], store: [], states: [], side: [] };
  const lines = printed.split("\n");
  for (let at = 0; at < lines.length; at++) {
    const take = (count) => lines.slice(at + 1, (at += Number(count)) + 1);
    const words = lines[at].split(" ");
    if (words[1] === "patch") found.records.push({ number: words[2], added: take(words[3]), removed: take(-words[4]) });
    else if (words[1] === "export:") found.store = take(words[2]);
    else if (words[1] === "ask" || words[1] === "match") take(words.at(-2));
    else if (words[1] === "state") found.states.push(lines[at].slice(8));
    else if (words[1] === "side") found.side.push(lines[at].slice(7));
  }
  return found;
}

// --- What is shown ---

function short(line) {
  if (!by("short").checked) return line;
  return line.replace(/<([^>]*)>/g, (whole, iri) => {
    const [name, start] = PREFIXES.find(([, start]) => iri.startsWith(start)) || [];
    return name && /^[\w.-]*$/.test(iri.slice(start.length)) ? `${name}:${iri.slice(start.length)}` : whole;
  });
}

// Fills an element with lines, each a text or a text and its class.
function fill(id, lines, nothing) {
  const shown = lines.length ? lines.slice(0, MOST_LINES) : [[nothing, "head"]];
  if (lines.length > MOST_LINES) shown.push([`and ${lines.length - MOST_LINES} lines more`, "head"]);
  const parts = shown.flatMap((line) => {
    const [text, name] = Array.isArray(line) ? line : [line];
    const part = document.createElement("span");
    part.textContent = text;
    if (name) part.className = name;
    return [part, "\n"];
  });
  by(id).replaceChildren(...parts);
}

// Fills the column of line numbers: those of the taken lines, and that of a refused one, stand out.
function fill_numbers(taken, message) {
  const count = given.lines.replace(/\n$/, "").split("\n").length;
  const bad = Number((/^wdq: line (\d+):/.exec(message) || [])[1]);
  const numbers = Array.from({ length: Math.min(count, MOST_LINES) }, (_, index) => index + 1);
  fill("numbers", numbers.map((number) => [number, number === bad ? "bad" : number <= taken ? "taken" : ""]));
  by("numbers").scrollTop = by("events").scrollTop;
}

function fill_records(records, before) {
  const lines = records.slice(before).flatMap(({ number, added, removed }) => [
    [`record ${number}`, "head"],
    ...added.map((line) => [short(line), "added"]),
    ...removed.map((line) => [short(line), "removed"]),
  ]);
  fill("records", lines, "no change since the watermark before");
}

// Shows what the run up to the slider leaves.
function show() {
  const position = Number(by("slider").value);
  const mark = marks[position - 1];
  const now = replay_at(position);
  by("place").textContent = mark
    ? `After the watermark ${mark.time} in line ${mark.number} (${position} of ${marks.length}). What is later waits.`
    : `At the end of the events${marks.length ? ", behind the last watermark" : ", in which there is no watermark"}.`;
  by("message").textContent = now.status ? `The run stops with status ${now.status}: ${now.message}` : "";
  by("count").textContent = now.status ? "" : `(${now.store.length})`;
  fill_records(records_at(position), records_at(position - 1).length);
  const stopped = now.status && "the run stopped, and prints none";
  fill("store", now.store.map(short), stopped || "none");
  fill("states", now.states, stopped || "none");
  fill("side", now.side, stopped || "nothing");
  const whole = replay_at(marks.length + 1);
  by("command").textContent = ["wdq replay", ...ALL, ...option_words()].join(" ");
  fill("printed", whole.printed.split("\n").slice(0, -1), "nothing");
  fill_numbers(mark ? mark.number : Infinity, whole.message);
}

function try_to_show() {
  try {
    show();
  } catch (error) {
    by("message").textContent = `The run failed: ${error.message}`;
  }
}

// Makes all anew after a change of what is given. The slider stays where it is, and at the end if it was there.
function change(position) {
  const was_at_end = Number(by("slider").value) === marks.length + 1;
  marks = watermarks(given.lines);
  left = new Map();
  by("slider").max = marks.length + 1;
  if (position || was_at_end) by("slider").value = position || marks.length + 1;
  try_to_show();
}

// --- What is given ---

// Shows the given events and pages in their fields.
function show_given() {
  by("events").value = given.lines;
  if (!given.pages.has(chosen)) chosen = [...given.pages.keys()][0] || "";
  const buttons = [...given.pages.keys()].slice(0, 200).map((revision) => {
    const button = document.createElement("button");
    button.textContent = revision;
    button.setAttribute("aria-pressed", revision === chosen);
    button.onclick = () => {
      chosen = revision;
      show_given();
    };
    return button;
  });
  by("revisions").replaceChildren(...buttons);
  by("page").value = given.pages.get(chosen) || "";
  by("page").disabled = !chosen;
}

function take_example(name, position) {
  const example = examples.find((it) => it.name === name) || examples[0];
  by("example").value = example.name;
  given = { lines: example.lines, pages: new Map(example.pages) };
  by("options").value = "";
  show_given();
  change(position || watermarks(given.lines).length + 1);
}

// Notes that the events or pages are no longer an example's.
function own() {
  by("example").value = "";
}

// Takes files: 5.json is a page, and any other file has events. The first ones replace the example.
async function take_files(files) {
  if (by("example").value) given = { lines: "", pages: new Map() };
  own();
  const refused = [];
  for (const file of files) {
    try {
      const text = new TextDecoder("utf-8", { fatal: true, ignoreBOM: true }).decode(await file.arrayBuffer());
      const revision = /^([1-9]\d*)\.json$/.exec(file.name);
      if (revision) given.pages.set(revision[1], text);
      else given.lines = text;
    } catch {
      refused.push(file.name);
    }
  }
  show_given();
  change(watermarks(given.lines).length + 1);
  if (refused.length) by("message").textContent = `Not UTF-8, so not taken: ${refused.join(", ")}`;
}

// Gives the files that were dropped, also those of folders.
async function files_of(entries) {
  const files = [];
  for (const entry of entries) {
    if (entry.isFile) files.push(await new Promise((done, failed) => entry.file(done, failed)));
    else {
      const reader = entry.createReader();
      for (;;) {
        const some = await new Promise((done, failed) => reader.readEntries(done, failed));
        if (!some.length) break;
        files.push(...(await files_of(some)));
      }
    }
  }
  return files;
}

function listen() {
  let waiting;
  const soon = () => {
    clearTimeout(waiting);
    waiting = setTimeout(() => change(), 150);
  };
  by("events").oninput = () => {
    given.lines = by("events").value;
    own();
    soon();
  };
  by("events").onscroll = () => (by("numbers").scrollTop = by("events").scrollTop);
  by("page").oninput = () => {
    given.pages.set(chosen, by("page").value);
    own();
    soon();
  };
  by("options").oninput = soon;
  by("slider").oninput = try_to_show;
  by("short").onchange = try_to_show;
  by("example").onchange = () => take_example(by("example").value);
  by("add").onclick = () => {
    const revision = by("revision").value.trim();
    if (!/^[1-9]\d{0,19}$/.test(revision)) return;
    if (!given.pages.has(revision)) given.pages.set(revision, "");
    chosen = revision;
    by("revision").value = "";
    own();
    show_given();
    change();
  };
  by("remove").onclick = () => {
    given.pages.delete(chosen);
    own();
    show_given();
    change();
  };
  by("open").onclick = () => by("files").click();
  by("files").onchange = async () => {
    await take_files(by("files").files);
    by("files").value = "";
  };
  document.ondragover = (event) => {
    event.preventDefault();
    document.body.classList.add("over");
  };
  document.ondragleave = () => document.body.classList.remove("over");
  document.ondrop = async (event) => {
    event.preventDefault();
    document.body.classList.remove("over");
    const entries = [...event.dataTransfer.items].map((item) => item.webkitGetAsEntry()).filter(Boolean);
    take_files(entries.length ? await files_of(entries) : [...event.dataTransfer.files]);
  };
}

// Gives the bytes of the module, which stands in the page packed by gzip, in base 64.
async function module_bytes() {
  const packed = Uint8Array.from(atob(by("module").textContent.trim()), (letter) => letter.charCodeAt(0));
  return new Response(new Blob([packed]).stream().pipeThrough(new DecompressionStream("gzip"))).arrayBuffer();
}

// Begins with the example and the watermark that the address names, as #questions/2, or with the first example at its end.
async function begin() {
  by("example").replaceChildren(...examples.map(({ name }) => new Option(name, name)), new Option("your own", ""));
  try {
    run = await load(await module_bytes());
  } catch (error) {
    by("message").textContent = `The module can't be loaded (${error.message}). It needs a browser whose WebAssembly has memories of 64 bits, as Chromium 133 or Firefox 134.`;
    return;
  }
  listen();
  const [name, position] = decodeURIComponent(location.hash.slice(1)).split("/");
  take_example(name, Number(position));
  globalThis.wdq = run;
}

await begin();
