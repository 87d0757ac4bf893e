// Runs the program in the page: a WebAssembly module in a Worker, so that a long answer doesn't stop the page. Each call
// has a new instance: a call that was cut off leaves its memory half changed.
"use strict";

// Whether this browser has memories with addresses of 64 bits: it takes a module that has one and nothing else.
function hasWideMemory() {
  const least = [0x00, 0x61, 0x73, 0x6d, 1, 0, 0, 0, 5, 3, 1, 4, 1];
  return typeof WebAssembly === "object" && WebAssembly.validate(new Uint8Array(least));
}

// What the Worker does. It stands on nothing outside itself, since the Worker is made from its text: from a file a page
// may load no Worker.
function serve() {
  const FIRST_ROOM = (1 << 24) - 16;
  let module = null;

  // The answer to a word and a document, both as bytes. Where the text is longer than the room it is asked for again.
  function answer(word, document, room) {
    const { memory, page_take, nysiad_answer } = new WebAssembly.Instance(module, {}).exports;
    const take = (count) => {
      const at = page_take(BigInt(count));
      if (at === 0n) throw new Error("there is no memory for the document");
      return at;
    };
    const put = (bytes) => {
      const at = take(bytes.length);
      new Uint8Array(memory.buffer).set(bytes, Number(at));
      return [at, BigInt(bytes.length)];
    };
    const [text, size] = [take(room), take(8)];
    const status = nysiad_answer(...put(word), ...put(document), text, BigInt(room), size);
    // The buffer is another where the memory grew.
    const count = Number(new DataView(memory.buffer).getBigUint64(Number(size), true));
    if (count > room) return answer(word, document, count);
    const bytes = new Uint8Array(memory.buffer, Number(text), count);
    return { status, text: new TextDecoder().decode(bytes), memory: memory.buffer.byteLength };
  }

  self.onmessage = async ({ data }) => {
    try {
      if (data.module) {
        module = await WebAssembly.compile(data.module);
        self.postMessage({ isReady: true });
        return;
      }
      const began = performance.now();
      const bytes = (it) => new TextEncoder().encode(it);
      const found = answer(bytes(data.word), bytes(data.document), FIRST_ROOM);
      self.postMessage({ ...found, milliseconds: performance.now() - began });
    } catch (error) {
      self.postMessage({ failure: error.message });
    }
  };
}

// The program, of a module as base64. `answer` promises { status, text, memory, milliseconds }; `stop` ends what runs,
// whose promise is then refused.
class Program {
  constructor(base64) {
    this.bytes = Uint8Array.from(atob(base64), (letter) => letter.charCodeAt(0));
    this.begin();
  }

  begin() {
    this.place = URL.createObjectURL(new Blob([`"use strict";(${serve})();`], { type: "text/javascript" }));
    this.worker = new Worker(this.place);
    this.waiting = [];
    this.worker.onmessage = ({ data }) => {
      const { resolve, reject } = this.waiting.shift();
      if (data.failure) reject(new Error(data.failure));
      else resolve(data);
    };
    this.worker.onerror = (event) => this.stop(event.message);
    this.ready = this.ask({ module: this.bytes });
    this.ready.catch(() => {});
  }

  ask(message) {
    return new Promise((resolve, reject) => {
      this.waiting.push({ resolve, reject });
      this.worker.postMessage(message);
    });
  }

  // Nothing is asked before the module is there: the Worker answers in the order in which it is asked.
  async answer(word, document) {
    const { ready } = this;
    await ready;
    if (ready !== this.ready) throw new Error("stopped");
    return this.ask({ word, document });
  }

  stop(why = "stopped") {
    const cutOff = this.waiting;
    this.worker.terminate();
    URL.revokeObjectURL(this.place);
    this.begin();
    for (const { reject } of cutOff) reject(new Error(why));
  }
}
