// wdq as a WebAssembly module with a memory of 64 bits. `load(bytes)` compiles the module and gives a function
//   run(words, lines, pages, snapshot) -> { status, message, printed, snapshot }
// `words` are texts, as ["replay", "--export"]; `lines` are the input, and `snapshot` that of --resume, as texts or bytes; `pages` are pairs of a
// revision, as a number, a BigInt or a text, and its page, as a text or bytes. What is printed comes as a text, and the snapshot as bytes.
export async function load(bytes) {
  const module = await WebAssembly.compile(bytes);
  let instance = await WebAssembly.instantiate(module);

  return function run(words, lines, pages = [], snapshot = "") {
    try {
      return call(instance.exports, words, lines, pages, snapshot);
    } catch (error) {
      // After a trap nothing is known of the instance's memory.
      instance = new WebAssembly.Instance(module);
      throw error;
    }
  };
}

const bytes_of = (it) => (typeof it === "string" ? new TextEncoder().encode(it) : it);
const text_of = (it) => new TextDecoder("utf-8", { ignoreBOM: true }).decode(it);

// Gives the places of the pages, three numbers each, and all their bytes.
function places_of(pages) {
  const given = pages.map(([revision, page]) => [BigInt(revision), bytes_of(page)]);
  const places = new BigUint64Array(3 * given.length);
  const all = new Uint8Array(given.reduce((sum, [, page]) => sum + page.length, 0));
  let start = 0;
  given.forEach(([revision, page], index) => {
    places.set([revision, BigInt(start), BigInt(page.length)], 3 * index);
    all.set(page, start);
    start += page.length;
  });
  return [new Uint8Array(places.buffer), all];
}

// Makes a call, again with more room where it needs more.
function call({ memory, wdq_run, wdq_alloc, wdq_free }, words, lines, pages, snapshot) {
  const taken = [];
  const take = (length) => {
    const at = wdq_alloc(BigInt(length || 1));
    if (!at) throw new Error("wdq: out of memory");
    taken.push(at);
    return at;
  };
  // A call may have grown the memory, so that each view is made anew.
  const lend = (bytes, count = bytes.length) => {
    const at = take(bytes.length);
    new Uint8Array(memory.buffer, Number(at), bytes.length).set(bytes);
    return [at, BigInt(count)];
  };
  try {
    const [places, all] = places_of(pages);
    const lent = [words.join("\n"), lines, snapshot].flatMap((it) => lend(bytes_of(it)));
    lent.push(...lend(places, pages.length), ...lend(all));
    const keys = crypto.getRandomValues(new BigUint64Array(2));
    const end = take(32);
    for (let room = 1 << 20; ; ) {
      const out = take(room);
      wdq_run(...keys, ...lent, out, BigInt(room), end);
      const [status, printed, saved, said] = [...new BigUint64Array(memory.buffer, Number(end), 4)].map(Number);
      const needed = printed + saved + said;
      if (needed <= room) {
        const left = new Uint8Array(memory.buffer, Number(out), needed).slice();
        const message = text_of(left.subarray(printed + saved));
        return { status, message, printed: text_of(left.subarray(0, printed)), snapshot: left.slice(printed, printed + saved) };
      }
      room = needed;
    }
  } finally {
    taken.forEach((at) => wdq_free(at));
  }
}
