// What a worker does: it opens the module, and answers questions to it, one after another.

let opened = null;

onmessage = async ({ data }) => {
  if (data.module !== undefined) {
    opened = openModule(data.module);
    return;
  }
  try {
    const its = await opened, start = performance.now();
    const said = its(data.verb, data.input, data.order);
    postMessage({ ...said, ms: performance.now() - start });
  } catch (error) {
    postMessage({ error: error.message });
  }
};
