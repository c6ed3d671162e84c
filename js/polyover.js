/**
 * Boolean operations on polygons with whole coordinates, by the library for C as WebAssembly.
 *
 *     import { load } from "polyover";
 *     const polyover = await load();
 *     polyover.overlay([[[0, 0], [4, 0], [4, 4], [0, 4]]], [[[2, 2], [6, 2], [6, 6], [2, 6]]], { rule: "intersect" });
 */

import { Polyover } from "./calls.js";
import { LibraryMissing } from "./errors.js";
import { checkNames, truth } from "./options.js";
import { RemoteArrangement, RemotePolyover, RemotePrepared } from "./remote.js";

export { multiLineString, multiPolygon } from "./answers.js";
export { Arrangement } from "./arrangement.js";
export * from "./errors.js";
export { Flat, FlatShapes } from "./flat.js";
export { LOCATIONS } from "./names.js";
export { Prepared } from "./prepared.js";
// (not from "./calls.js" once more: the page in one file holds a module for each time that it is named)
export { Polyover, RemoteArrangement, RemotePolyover, RemotePrepared };

// (bundlers for browsers leave a name in a variable alone)
const FILES = "node:fs/promises";

const STREAMED = "application/wasm";
const NAMELESS = "this module has no address, as in a bundle of CommonJS: load({ wasm }) takes one, or the bytes";

/** The module in a file, where the system of files is there, or in what a URL answers: compiled while it comes in. */
async function compiledAt(url) {
  if (url.protocol === "file:" && typeof process !== "undefined" && process.versions?.node) {
    const { readFile } = await import(/* webpackIgnore: true */ /* @vite-ignore */ FILES);
    return WebAssembly.compile(await readFile(url));
  }
  const answer = await fetch(url);
  if (!answer.ok) {
    throw new Error(`${url}: ${answer.status}`);
  }
  // (engines compile nothing while it comes in that a server says is of another type)
  const isStreamed = "compileStreaming" in WebAssembly && answer.headers.get("Content-Type") === STREAMED;
  return isStreamed ? WebAssembly.compileStreaming(answer) : WebAssembly.compile(await answer.arrayBuffer());
}

/** The address of the module of WebAssembly: one that may count from that of this file, or the file beside this one. */
function addressOf(wasm) {
  try {
    return wasm === undefined ? new URL("./polyover.wasm", import.meta.url) : new URL(wasm, import.meta.url);
  } catch (fault) {
    throw new Error(import.meta.url === undefined ? NAMELESS : fault.message);
  }
}

/** The module of WebAssembly: one that is compiled, its bytes, or where it is. */
async function compiled(wasm) {
  if (wasm instanceof WebAssembly.Module) {
    return wasm;
  }
  const isBytes = wasm instanceof ArrayBuffer || ArrayBuffer.isView(wasm);
  return isBytes ? WebAssembly.compile(wasm) : compiledAt(addressOf(wasm));
}

/**
 * The calls, once the module of WebAssembly is loaded.
 *
 * `wasm` is where it is, its bytes, or a module that is compiled; if it is not given, the file beside this one. With
 * `worker` the calls run in a worker, and answer promises; `end()` ends it, and with it a call that runs.
 */
export async function load(options = {}) {
  checkNames(options, ["wasm", "worker"]);
  const isInWorker = truth("worker")(options.worker ?? false);
  try {
    const module = await compiled(options.wasm ?? undefined);
    return isInWorker ? await RemotePolyover.over(module) : new Polyover(await WebAssembly.instantiate(module, {}));
  } catch (fault) {
    throw new LibraryMissing(`the module of WebAssembly cannot be loaded: ${fault.message}`);
  }
}
