#!/usr/bin/env node
// Hek without the Rattle kit, on any machine with Node from 24 on, or Deno from 2.2 on: `node docs/hek.mjs run examples/reader-then-writer.hek`.
// It has no program of its own: the WebAssembly module, and the function that runs it, are those of play.html, which stands beside it. It has
// no threads (`hek threads`, `hek permute --jobs`) and no environment, and it draws no pictures (`figure` of bin/hek.mjs does).
import fs from "node:fs";
import process from "node:process";
import tty from "node:tty";

const page = new TextDecoder().decode(fs.readFileSync(new URL("play.html", import.meta.url)));

// The text of an element of the page.
function element(id) {
  const mark = `<script type="text/plain" id="${id}">`, at = page.indexOf(mark);
  if (at < 0) throw new Error(`play.html has no element ${id}`);
  return page.slice(at + mark.length, page.indexOf("</script>", at));
}

// ---- what Node gives a machine: files, streams, terminals. tools/web puts this part into bin/hek.mjs too

// The error numbers of Linux, by their names; any other is EIO.
const ERRORS = {EPERM: 1, ENOENT: 2, EIO: 5, EBADF: 9, ENOMEM: 12, EACCES: 13, EEXIST: 17, ENOTDIR: 20, EISDIR: 21, EINVAL: 22, EMFILE: 24,
  ENOSPC: 28, EROFS: 30, EPIPE: 32, ENAMETOOLONG: 36, ELOOP: 40};
// Linux's flags of open, by the names that Node has for those of the machine.
const FLAGS = {O_WRONLY: 1, O_RDWR: 2, O_CREAT: 0o100, O_EXCL: 0o200, O_TRUNC: 0o1000, O_APPEND: 0o2000};

// Does it again while a pipe that another program made not to wait has no room or nothing to read.
function answer(act) {
  for (;;) {
    try {
      return act();
    } catch (fault) {
      if (fault.code === "EOF") return 0;
      if (fault.code !== "EAGAIN") return -(ERRORS[fault.code] ?? ERRORS.EIO);
      Atomics.wait(new Int32Array(new SharedArrayBuffer(4)), 0, 0, 5);
    }
  }
}

const system = {
  read: (fd, bytes) => answer(() => fs.readSync(fd, bytes)),
  write: (fd, bytes) => answer(() => fs.writeSync(fd, bytes)),
  open(name, flags) {
    const own = Object.keys(FLAGS).filter(it => flags & FLAGS[it]).reduce((all, it) => all | (fs.constants[it] ?? 0), 0);
    return answer(() => fs.openSync(name, own, 0o666));
  },
  close: fd => answer(() => fs.closeSync(fd) ?? 0),
  isTerminal: fd => tty.isatty(fd),
};

// ---- the machine of the page

// What the page's worker begins with; that it waits for messages is for the page alone.
const {runHek, isAble} = new Function(`let onmessage;\n${element("worker")}\nreturn {runHek, isAble};`)();
if (!isAble()) {
  process.stderr.write(`hek: ${process.version} has no 64-bit WebAssembly: it takes Node from 24 on, or Deno from 2.2 on\n`);
  process.exit(2);
}
const packed = Uint8Array.from(atob(element("machine")), char => char.charCodeAt(0));
const unpacked = new Blob([packed]).stream().pipeThrough(new DecompressionStream("gzip"));
const wasm = new WebAssembly.Module(await new Response(unpacked).arrayBuffer());
process.exitCode = runHek(wasm, process.argv.slice(2), system);
