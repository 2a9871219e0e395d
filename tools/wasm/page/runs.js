
// Runs of the modules, each in a worker, which may be stopped at any time.

const MOST_SHOWN = 500_000, MOST_WRITTEN = 1 << 28;
let module = null, sessionModule = null, workerPlace = '', current = null;

// A worker that is there before it is needed.
let spare = null;
function makeWorker() {
  const text = find('worker-text').textContent;
  workerPlace ||= URL.createObjectURL(new Blob([text], {type: 'text/javascript'}));
  spare ||= new Worker(workerPlace);
}
function takeWorker() {
  makeWorker();
  const worker = spare;
  spare = null;
  return worker;
}

// Whether the browser has memories and tables of 64 bits, by the smallest module with both.
function hasWideMemory() {
  const bytes = [0, 0x61, 0x73, 0x6d, 1, 0, 0, 0, 4, 4, 1, 0x70, 4, 1, 5, 3, 1, 4, 1];
  return typeof WebAssembly === 'object' && WebAssembly.validate(new Uint8Array(bytes));
}

// A text that grows, of which a page shows the first part.
function makeText() {
  const read = new TextDecoder();
  return {text: '', bytes: 0, parts: [],
    add(part) {
      this.bytes += part.length;
      this.parts.push(part);
      if (this.text.length < MOST_SHOWN) this.text += read.decode(part, {stream: true});
    }};
}

// Starts a run. `show` gets what is written as it comes, and how many steps were begun; the promise
// has the end of it, or null where it was stopped.
function startRun(request, show) {
  stopRun();
  return new Promise(done => {
    const worker = takeWorker(), texts = {1: makeText(), 2: makeText()};
    let steps = 0;
    const end = result => {
      worker.terminate();
      if (current && current.worker === worker) current = null;
      makeWorker();
      done(result);
    };
    current = {worker, stop: () => end(null)};
    worker.onerror = event => end({failed: event.message || 'the worker failed', texts});
    worker.onmessage = ({data}) => {
      if (data.kind === 'wrote') {
        texts[data.stream].add(data.part);
        show(texts, steps);
        if (texts[1].bytes + texts[2].bytes > MOST_WRITTEN) {
          end({failed: 'it wrote more than 256 MiB: trace fewer steps', texts});
        }
      } else if (data.kind === 'slice') {
        steps = data.steps;
        show(texts, steps);
      } else if (data.kind === 'failed') end({failed: data.text, texts});
      else end({status: data.status, made: data.made, memory: data.memory, texts});
    };
    worker.postMessage({module: request.program ? sessionModule : module, request});
  });
}

function stopRun() {
  if (current) current.stop();
}
