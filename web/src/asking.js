// Questions to the module. It runs in a worker, so that the page can be used meanwhile. Of two
// questions the later one counts: the worker that still works at the earlier one is ended.

const asking = { module: null, worker: null, resolve: null };

async function startAsking(bytes) {
  asking.module = await WebAssembly.compile(bytes);
  newWorker();
}

function newWorker() {
  asking.worker?.terminate();
  const url = URL.createObjectURL(new Blob([WORKER], { type: "text/javascript" }));
  asking.worker = new Worker(url);
  URL.revokeObjectURL(url);
  asking.worker.postMessage({ module: asking.module });
  asking.worker.onmessage = ({ data }) => answered(data);
  asking.worker.onerror = (event) => answered({ error: event.message });
}

function answered(said) {
  const resolve = asking.resolve;
  asking.resolve = null;
  if (said.error === undefined) {
    resolve?.(said);
    return;
  }
  say("stopped: " + said.error, "bad");
  newWorker();
  resolve?.(null);
}

// What the module says to a text; nothing where another question came, or where it broke off.
function ask(verb, input) {
  if (asking.resolve !== null) {
    asking.resolve(null);
    newWorker();
  }
  say("running", "");
  return new Promise((resolve) => {
    asking.resolve = resolve;
    asking.worker.postMessage({ verb, input, order: orderNow() });
  });
}
