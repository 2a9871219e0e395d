'use strict';
// In a worker: runs a module once. A request has words of the command line, files by their names,
// and the names of files to give back.

const POST_MILLISECONDS = 60, POST_BYTES = 1 << 20;
const encoder = new TextEncoder();

function lend(program, bytes) {
  const at = program.page_alloc(BigInt(bytes.length || 1));
  if (at === 0n) throw new RangeError('there is no memory for a file');
  new Uint8Array(program.memory.buffer, Number(at), bytes.length).set(bytes);
  return at;
}

const lendText = (program, text) => lend(program, encoder.encode(text + '\0'));

// Collects what is written, and posts it now and then: a run may write a line an instruction.
function makeWriter(post) {
  const parts = [];
  let bytes = 0, posted = performance.now();
  const flush = () => {
    for (const it of parts.splice(0)) post({kind: 'wrote', ...it});
    bytes = 0;
    posted = performance.now();
  };
  const write = (stream, part) => {
    parts.push({stream, part});
    bytes += part.length;
    if (bytes > POST_BYTES || performance.now() - posted > POST_MILLISECONDS) flush();
  };
  return {write, flush};
}

// Counts the steps of slices, of all runs that an explanation takes, and posts them now and then.
function makeCounter(post) {
  let steps = 0, posted = -Infinity;
  return count => {
    steps += count;
    if (performance.now() - posted < POST_MILLISECONDS) return;
    post({kind: 'slice', steps});
    posted = performance.now();
  };
}

function prepare(module, request, write, slice) {
  let program = null;
  const bytesAt = (at, count) => new Uint8Array(program.memory.buffer, Number(at), Number(count));
  const page = {write: (stream, at, count) => write(stream, bytesAt(at, count).slice()), slice};
  program = new WebAssembly.Instance(module, {page}).exports;
  for (const word of [request.program || 'mte_run', ...request.words]) {
    const isTaken = program.page_word(lendText(program, word));
    if (!isTaken) throw new RangeError('there are too many words');
  }
  for (const [name, bytes] of request.files) {
    const isTaken = program.page_file(lendText(program, name), lend(program, bytes),
      BigInt(bytes.length));
    if (!isTaken) throw new RangeError('there are too many files');
  }
  return program;
}

// The files that the run made, of those that are asked for.
function madeFiles(program, names) {
  const made = {};
  for (const name of names) {
    const at = lendText(program, name), length = Number(program.page_length(at));
    if (length < 0) continue;
    const start = Number(program.page_bytes(at));
    made[name] = new Uint8Array(program.memory.buffer, start, length).slice();
  }
  return made;
}

function runOnce(module, request, post) {
  const writer = makeWriter(post);
  const program = prepare(module, request, writer.write, makeCounter(post));
  const status = program.page_run();
  writer.flush();
  const made = madeFiles(program, request.made);
  return {status, made, memory: program.memory.buffer.byteLength};
}
