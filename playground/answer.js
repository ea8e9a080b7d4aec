// One answer of the program: its words and the texts that they name go in, what it prints and the files that it writes come out. Each answer has an instance
// of the module, and so a memory, of its own: nothing is kept from one to the next, and a trap harms nothing.
const ROOM = 1n << 20n;

class Instance {
  constructor(module) {
    this.calls = new WebAssembly.Instance(module, {}).exports;
  }

  room(size) {
    const at = this.calls.play_room(size || 1n);
    if (at === 0n) throw new Error("memory is refused");
    return at;
  }

  bytes(at, size) {
    return new Uint8Array(this.calls.memory.buffer, Number(at), Number(size));
  }

  // A slice of these bytes, as a call takes it: where it lies, and its length.
  slice(bytes) {
    const size = BigInt(bytes.length), at = this.room(size);
    this.bytes(at, size).set(bytes);
    return [at, size];
  }
}

// The answer as bytes. Where there is too little room for them, the call is made once more.
function answerBytes(module, line, texts, room) {
  const it = new Instance(module), encoder = new TextEncoder(), needed = it.room(8n), out = it.room(room);
  const given = [line, ...texts].flatMap((text) => it.slice(encoder.encode(text)));
  const seed = crypto.getRandomValues(new BigUint64Array(2));
  // The call wants what it writes to to have values before.
  it.bytes(out, room).fill(0);
  if (it.calls.play_answer(...given, seed[0], seed[1], out, room, needed) !== 0) throw new Error("memory is refused");
  const size = new DataView(it.calls.memory.buffer).getBigUint64(Number(needed), true);
  return size > room ? answerBytes(module, line, texts, size) : it.bytes(out, size);
}

// Its parts: a line of numbers says the status and how many bytes each part has.
function partsOf(bytes) {
  const decoder = new TextDecoder(), end = bytes.indexOf(10), [status, ...sizes] = decoder.decode(bytes.subarray(0, end)).split(" ").map(Number);
  let at = end + 1;
  const parts = sizes.map((size) => decoder.decode(bytes.subarray(at, at += size)));
  const files = new Map();
  for (let k = 2; k + 1 < parts.length; k += 2) files.set(parts[k], parts[k + 1]);
  return { status, output: parts[0], notes: parts[1], files };
}

// `words` begin with the program's name. Whatever files they name, the module, the schedule and standard input are these texts.
function answerOf(module, words, { text, schedule = "", input = "" }) {
  return partsOf(answerBytes(module, words.join("\n"), [text, schedule, input], ROOM));
}
