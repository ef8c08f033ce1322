// ---- the machine, in a worker

// A run that takes longer than `SLOW` says that it is at work; after `longest` it is ended. Milliseconds.
const SLOW = 400;
let longest = 120000;
const $ = id => document.getElementById(id);
// `waiting` is the run that goes on: its number, what takes its answer, and the timer that ends it.
let wasm = null, worker = null, waiting = null, lastRun = 0;

// The module is compiled while it is unpacked.
async function load() {
  const packed = await fetch("data:application/gzip;base64," + $("machine").textContent.trim());
  const unpacked = packed.body.pipeThrough(new DecompressionStream("gzip"));
  wasm = await WebAssembly.compileStreaming(new Response(unpacked, {headers: {"Content-Type": "application/wasm"}}));
}

// Runs hek over `files`, texts by name. Answers {status, out, err}; of a run that is ended by the next one, {isEnded: true}.
function hek(args, files, input = "") {
  if (waiting) end({isEnded: true});
  if (!worker) {
    worker = new Worker(URL.createObjectURL(new Blob([$("worker").textContent], {type: "text/javascript"})));
    worker.onmessage = ({data}) => {
      if (data.id !== waiting?.id) return;
      if (data.progress) progress = data.progress.replace(/^hek: permute: /, "");
      else answered(data);
    };
    worker.onerror = event => stop(`the machine ended: ${event.message}`);
    worker.postMessage({wasm});
  }
  return new Promise(settle => {
    const timer = setTimeout(() => stop(`ended: it took more than ${longest / 1000} seconds`), longest);
    waiting = {id: ++lastRun, settle, timer};
    const encoder = new TextEncoder();
    const bytes = Object.fromEntries(Object.entries(files).map(([name, said]) => [name, encoder.encode(said)]));
    worker.postMessage({id: lastRun, files: bytes, args, input: encoder.encode(input)});
  });
}

function answered(data) {
  const {settle, timer} = waiting;
  clearTimeout(timer);
  waiting = null;
  settle(data.fault ? {status: 2, out: "", err: `the machine ended: ${data.fault}`} : data);
}

// Ends the run that goes on, which answers why.
function stop(why) {
  if (waiting) end({status: 2, out: "", err: why});
}

// Ends the run that goes on, with its worker.
function end(answer) {
  worker.terminate();
  worker = null;
  answered(answer);
}

// ---- what is said while a run goes on

let began = 0, ticking = null, progress = "";

// `more` changes all the time, and is for the eyes alone.
function say(said, more = "", canEnd = false) {
  $("wait").hidden = said === "";
  if ($("wait-said").textContent !== said) $("wait-said").textContent = said;
  $("wait-more").textContent = more;
  $("wait-end").hidden = !canEnd;
}

// Says, of what takes longer, for how long, and how far it is.
function working() {
  clearInterval(ticking);
  [began, progress] = [performance.now(), ""];
  ticking = setInterval(() => {
    const seconds = Math.floor((performance.now() - began) / 1000);
    say("Working\u2026", seconds < 2 ? "" : `${seconds} of ${longest / 1000} seconds${progress && `: ${progress}`}`, true);
  }, SLOW);
}

function worked() {
  clearInterval(ticking);
  say("");
}
