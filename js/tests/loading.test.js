/** How the module of WebAssembly is loaded: of a server, which may say what it is, and without an address. */

import assert from "node:assert/strict";
import { cpSync, mkdtempSync, readFileSync, readdirSync, rmSync, writeFileSync } from "node:fs";
import { createServer } from "node:http";
import { tmpdir } from "node:os";
import { join } from "node:path";
import test from "node:test";
import { fileURLToPath, pathToFileURL } from "node:url";
import { LibraryMissing, load } from "../polyover.js";
import { rows } from "./there.js";

const { SQUARE } = rows;
const FOLDER = fileURLToPath(new URL("..", import.meta.url));
const BYTES = readFileSync(`${FOLDER}/polyover.wasm`);

/** What some work gives with a server of the module, which says that it is of a type. */
async function served(type, work) {
  const server = createServer((asked, answer) => {
    answer.writeHead(asked.url === "/polyover.wasm" ? 200 : 404, { "Content-Type": type });
    answer.end(BYTES);
  });
  await new Promise((begun) => server.listen(0, "127.0.0.1", begun));
  try {
    return await work(`http://127.0.0.1:${server.address().port}`);
  } finally {
    server.close();
    server.closeAllConnections();
  }
}

/** How often the module is compiled while it comes in, and afterwards. */
async function compilings(work) {
  const { compile, compileStreaming } = WebAssembly;
  const counts = { streamed: 0, whole: 0 };
  WebAssembly.compileStreaming = (answer) => (counts.streamed++, compileStreaming(answer));
  WebAssembly.compile = (bytes) => (counts.whole++, compile(bytes));
  try {
    await work();
  } finally {
    Object.assign(WebAssembly, { compile, compileStreaming });
  }
  return counts;
}

test("a module is compiled while it comes in, where the server says that it is one", async () => {
  for (const [type, counts] of [
    ["application/wasm", { streamed: 1, whole: 0 }],
    ["application/octet-stream", { streamed: 0, whole: 1 }],
  ]) {
    await served(type, async (base) => {
      // (by its first request Node compiles a module of its own)
      await (await fetch(base)).arrayBuffer();
      const found = await compilings(async () => {
        const polyover = await load({ wasm: `${base}/polyover.wasm` });
        assert.equal(polyover.overlay([SQUARE]).length, 1);
      });
      assert.deepEqual(found, counts);
      await assert.rejects(load({ wasm: `${base}/none.wasm` }), LibraryMissing);
    });
  }
});

test("a module without an address, as bundles of CommonJS are, tells so", async () => {
  const folder = mkdtempSync(join(tmpdir(), "polyover-"));
  try {
    for (const name of readdirSync(FOLDER).filter((each) => each.endsWith(".js"))) {
      const text = readFileSync(join(FOLDER, name), "utf8");
      writeFileSync(join(folder, name), text.replaceAll("import.meta.url", "({}).url"));
    }
    cpSync(join(FOLDER, "package.json"), join(folder, "package.json"));
    const bundled = await import(pathToFileURL(join(folder, "polyover.js")));
    const isMissing = (fault) => fault instanceof bundled.LibraryMissing && fault.message.includes("has no address");
    await assert.rejects(bundled.load(), isMissing);
    await assert.rejects(bundled.load({ wasm: "./polyover.wasm" }), isMissing);
    await assert.rejects(bundled.load({ wasm: BYTES, worker: true }), bundled.LibraryMissing);
    assert.equal((await bundled.load({ wasm: BYTES })).overlay([SQUARE]).length, 1);
    const whole = pathToFileURL(join(FOLDER, "polyover.wasm")).href;
    assert.equal((await bundled.load({ wasm: whole })).overlay([SQUARE]).length, 1);
  } finally {
    rmSync(folder, { recursive: true });
  }
});
