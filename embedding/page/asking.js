// The module, compressed and in base64.
const MODULE = "{{module}}";
const ROOM = 16n;
// The rooms for an answer that a first call has, and how much larger those of the next one are.
const FIRST_ROOM = 1 << 16;
const GROWTH = 16;
const NO_MEMORY = 3;

const compiled = (async () => {
  const packed = Uint8Array.from(atob(MODULE), (c) => c.charCodeAt(0));
  const stream = new Blob([packed]).stream().pipeThrough(new DecompressionStream("gzip"));
  return WebAssembly.compile(await new Response(stream).arrayBuffer());
})();

// A fresh instance for each question, so nothing of one reaches the next, not even after a trap. It takes its memory
// from here: what it lets go is not given again, and all of it goes with the instance.
async function instance() {
  let memory, top;
  const take = (size, align) => {
    const at = ((top + ROOM - 1n) / ROOM) * ROOM;
    const end = at + (size || align);
    const missing = end - BigInt(memory.buffer.byteLength);
    try {
      if (missing > 0n) memory.grow(Number((missing + 65535n) / 65536n));
    } catch {
      return 0n;
    }
    top = end;
    return at;
  };
  const tell = (result, at) => {
    const view = new DataView(memory.buffer, Number(result), 16);
    view.setBigUint64(0, at ? 1n : 0n, true);
    view.setBigUint64(8, at || ROOM, true);
  };
  const env = {
    rattle_alloc: (result, size, align) => tell(result, take(size, align)),
    rattle_realloc: (result, from, kept, size, align) => {
      const at = take(size, align);
      const length = kept < size ? kept : size;
      if (at) new Uint8Array(memory.buffer).copyWithin(Number(at), Number(from), Number(from + length));
      tell(result, at);
    },
    rattle_dealloc: () => {},
    __xpg_strerror_r: () => 22,
  };
  const made = await WebAssembly.instantiate(await compiled, { env });
  memory = made.exports.memory;
  top = BigInt(made.exports.__heap_base.value);
  const at = (from, length) => new Uint8Array(memory.buffer, Number(from), length);
  return { call: made.exports.opcmds_ask, take, at };
}

// One call, with rooms of this size for the output and for the errors; undefined if one of them is too small.
async function askOnce(texts, size) {
  const { call, take, at } = await instance();
  const given = texts.map((text) => ({ from: take(BigInt(text.length), ROOM), text }));
  const [output, errors] = [take(BigInt(size), ROOM), take(BigInt(size), ROOM)];
  const lengths = take(16n, ROOM);
  if (!lengths) return { status: NO_MEMORY, output: "", errors: "" };
  for (const { from, text } of given) at(from, text.length).set(text);
  const words = given.flatMap(({ from, text }) => [from, BigInt(text.length)]);
  const status = call(...words, output, BigInt(size), errors, BigInt(size), lengths);
  const told = new BigUint64Array(at(lengths, 16).slice().buffer);
  if (told[0] > size || told[1] > size) return undefined;
  const text = (from, length) => new TextDecoder().decode(at(from, Number(length)).slice());
  return { status, output: text(output, told[0]), errors: text(errors, told[1]) };
}

// The program's answer to these words by the bytes of a policy; `diff` compares them with those of a new one.
async function ask(policy, words, newPolicy = new Uint8Array()) {
  const texts = [policy, newPolicy, new TextEncoder().encode(words.join("\0"))];
  for (let size = FIRST_ROOM; ; size *= GROWTH) {
    const answer = await askOnce(texts, size);
    if (answer) return answer;
  }
}
