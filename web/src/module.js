// The module: bytes in, bytes and a status out. Nothing is kept between two calls, so its heap
// begins anew with each.

async function openModule(module) {
  const instance = await WebAssembly.instantiate(module, {});
  const { memory, page_alloc: alloc, page_reset: reset, ...calls } = instance.exports;
  const place = (size) => {
    const at = alloc(BigInt(size));
    if (at === 0n) throw new Error("the browser gives no more memory");
    return at;
  };
  const take = (verb, input, order, room) => {
    reset();
    const at = place(input.length || 1);
    const length = place(8);
    const out = place(room);
    new Uint8Array(memory.buffer).set(input, Number(at));
    const turn = verb === "check" ? [] : [BigInt.asUintN(64, BigInt(order))];
    const call = calls["its_web_" + verb];
    const status = call(at, BigInt(input.length), ...turn, out, BigInt(room), length);
    const size = Number(new DataView(memory.buffer).getBigUint64(Number(length), true));
    const all = new Uint8Array(memory.buffer);
    const start = Number(out);
    return { status, size, bytes: size <= room ? all.slice(start, start + size) : null };
  };
  // What the verb `run`, `explain` or `check` says of a text: a status and a text.
  return (verb, text, order = 0) => {
    const input = new TextEncoder().encode(text);
    let said = take(verb, input, order, Math.max(1 << 18, 8 * input.length));
    if (said.bytes === null) said = take(verb, input, order, said.size);
    return { status: said.status, text: new TextDecoder().decode(said.bytes) };
  };
}
