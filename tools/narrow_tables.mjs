// For tests alone: lets a Node from 20 to 23, whose WebAssembly has 64-bit memories but no 64-bit tables, run docs/hek.mjs, as tools/examples --mjs
// does: `node --experimental-wasm-memory64 --import tools/narrow_tables.mjs docs/hek.mjs ..`. Each module is compiled with tables of 32 bits:
// the limits of its tables say so, the place of an element segment is of 32 bits, and so is the index of each indirect call, of which the
// lower half is taken. The rest stays as it is. A module that it can't read, or that has other instructions of tables, is an error.
const TABLE = 4, ELEMENT = 9, CODE = 10;
const WIDE = 4, I64_CONST = 0x42, I32_CONST = 0x41, I32_WRAP_I64 = 0xa7;
// What follows an instruction: `n` a number in LEB128, `v` as many numbers as the first says, a digit as many bytes, `x` 16. An indirect call has
// `c` before it, and what isn't here is refused. An instruction is a byte, or 0x100 and a number after 0xfc, or 0x200 and one after 0xfd.
const follows = [];
for (const [what, ...places] of [
  ["", [0x00, 0x01], [0x05], [0x0b], [0x0f], [0x1a, 0x1b], [0x45, 0xc4], [0xd1], [0x100, 0x107], [0x20e, 0x214], [0x223, 0x253], [0x25e, 0x2ff]],
  ["n", [0x02, 0x04], [0x0c, 0x0d], [0x10], [0x12], [0x20, 0x24], [0x3f, 0x42], [0xd0], [0xd2], [0x109]],
  ["nn", [0x28, 0x3e], [0x108], [0x10a], [0x200, 0x20b], [0x25c, 0x25d]], ["cnn", [0x11], [0x13]],
  ["v", [0x1c]], ["vn", [0x0e]], ["4", [0x43]], ["8", [0x44]], ["n", [0x10b]], ["x", [0x20c, 0x20d]], ["1", [0x215, 0x222]], ["nn1", [0x254, 0x25b]],
]) for (const [first, last = first] of places) for (let code = first; code <= last; code++) follows[code] = what;

class Reader {
  constructor(bytes) { Object.assign(this, {bytes, at: 0}); }

  number() {
    let value = 0, scale = 1, byte;
    do {
      byte = this.bytes[this.at++];
      value += (byte & 127) * scale;
      scale *= 128;
    } while (byte & 128);
    return value;
  }

  pass(what) {
    for (const one of what) {
      if (one === "n") this.number();
      else if (one === "v") for (let left = this.number(); left > 0; left--) this.number();
      else if (one !== "c") this.at += one === "x" ? 16 : Number(one);
    }
  }

  // Passes an instruction; answers whether it is an indirect call.
  instruction() {
    let code = this.bytes[this.at++];
    if (code >= 0xfc) code = (code - 0xfb) * 0x100 + this.number();
    const what = follows[code];
    if (what === undefined) throw new Error(`narrow_tables.mjs: no instruction ${code.toString(16)} before byte ${this.at}`);
    this.pass(what);
    return what === "cnn";
  }
}

function leb(number) {
  const bytes = [];
  for (; number > 127; number = Math.floor(number / 128)) bytes.push(number % 128 + 128);
  return [...bytes, number];
}

const joined = parts => Buffer.concat(parts.map(it => it instanceof Uint8Array ? it : Uint8Array.from(it)));
const sized = bytes => [leb(bytes.length), bytes];

// The limits of each table: of 32 bits.
function tables(bytes) {
  const its = new Reader(bytes), made = bytes.slice();
  for (let left = its.number(); left > 0; left--) {
    const flags = ++its.at;
    its.at++;
    its.pass(bytes[flags] & 1 ? "nn" : "n");
    made[flags] &= ~WIDE;
  }
  return made;
}

// The place of each segment, a constant, of 32 bits: its number is written alike.
function elements(bytes) {
  const its = new Reader(bytes), made = bytes.slice();
  for (let left = its.number(); left > 0; left--) {
    if (its.number() !== 0 || bytes[its.at] !== I64_CONST) throw new Error("narrow_tables.mjs: a segment of elements of another form");
    made[its.at] = I32_CONST;
    while (bytes[its.at] !== 0x0b) its.instruction();
    its.at++;
    its.pass("v");
  }
  return made;
}

// The functions: before each indirect call its index becomes one of 32 bits.
function functions(bytes) {
  const its = new Reader(bytes), count = its.number(), parts = [leb(count)];
  for (let left = count; left > 0; left--) {
    const size = its.number(), end = its.at + size, body = [];
    let kept = its.at;
    for (let groups = its.number(); groups > 0; groups--) its.pass("nn");
    while (its.at < end) {
      const start = its.at;
      if (!its.instruction()) continue;
      body.push(bytes.subarray(kept, start), [I32_WRAP_I64]);
      kept = start;
    }
    parts.push(...sized(joined([...body, bytes.subarray(kept, end)])));
  }
  return joined(parts);
}

function narrowed(module) {
  const bytes = new Uint8Array(module), its = new Reader(bytes), parts = [bytes.subarray(0, 8)];
  const by = {[TABLE]: tables, [ELEMENT]: elements, [CODE]: functions};
  its.at = 8;
  while (its.at < bytes.length) {
    const kind = bytes[its.at++], size = its.number(), body = bytes.subarray(its.at, its.at += size);
    parts.push([kind], ...sized(by[kind]?.(body) ?? body));
  }
  return joined(parts);
}

// Before 20 a lane of a vector can't be loaded from a 64-bit memory: nothing is changed there, and docs/hek.mjs says that this Node can't run it.
if (Number(process.versions.node.split(".")[0]) >= 20) {
  const {Module, validate} = WebAssembly;
  WebAssembly.Module = class extends Module {
    constructor(module) { super(narrowed(module)); }
  };
  WebAssembly.validate = module => validate(narrowed(module));
}
