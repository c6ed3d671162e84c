/**
 * The files of the package, by their syntax: they take no more than Chrome 85, Firefox 90 and Safari 15 have, of which
 * docs/JAVASCRIPT.md speaks; and their types name all that they export. The parser is the one that Node has inside.
 */

import assert from "node:assert/strict";
import { execFileSync } from "node:child_process";
import { readFileSync, readdirSync } from "node:fs";
import test from "node:test";
import { fileURLToPath } from "node:url";
import * as polyover from "../polyover.js";

const FOLDER = fileURLToPath(new URL("..", import.meta.url));
const FILES = readdirSync(FOLDER).filter((name) => name.endsWith(".js"));
// (of ES2022 these browsers have fields and private methods of classes, and no more: no await outside of functions, no
// static block, and no `#name in object`)
const PARSING = `
  const { parse } = require("internal/deps/acorn/acorn/dist/acorn");
  const isLater = ({ type, operator, left, await: isAwaited }, isInside) =>
    type === "StaticBlock" ||
    (type === "BinaryExpression" && operator === "in" && left.type === "PrivateIdentifier") ||
    (!isInside && (type === "AwaitExpression" || (type === "ForOfStatement" && isAwaited)));
  const look = (node, isInside, found) => {
    if (node === null || typeof node !== "object") return found;
    if (isLater(node, isInside)) found.push(node.type + " at " + node.start);
    const within = isInside || /Function/.test(node.type);
    Object.values(node).forEach((each) => look(each, within, found));
    return found;
  };
  const told = (text) => {
    try {
      return look(parse(text, { ecmaVersion: 2022, sourceType: "module" }), false, []).join(", ");
    } catch (fault) {
      return fault.message;
    }
  };
  const texts = JSON.parse(require("fs").readFileSync(0, "utf8"));
  process.stdout.write(JSON.stringify(texts.map(told)));
`;
// names that came later than these browsers
const LATER = new RegExp(
  "\\.(at|findLast\\w*|hasOwn|toSorted|toSpliced|with|groupBy|transfer|fromAsync|withResolvers)\\(|structuredClone",
);

/** In what each text takes more than these browsers have; nothing where it does not. */
function refusedIn(texts) {
  const words = ["--no-warnings", "--expose-internals", "-e", PARSING];
  const told = JSON.parse(execFileSync(process.execPath, words, { input: JSON.stringify(texts), encoding: "utf8" }));
  return told.map((syntax, at) => [syntax, LATER.exec(texts[at])?.[0]].filter(Boolean).join(", "));
}

test("each file is taken by the browsers that the page names", () => {
  assert.ok(FILES.includes("worker.js") && FILES.includes("polyover.js"));
  const told = refusedIn(FILES.map((name) => readFileSync(`${FOLDER}/${name}`, "utf8")));
  assert.deepEqual(FILES.filter((_, at) => told[at]), [], told.join(" "));
});

test("what these browsers do not take is seen", () => {
  const later = ["await 1;", "class A { static { 1; } }", "class A { #a; b = (c) => #a in c; }", "[].at(1);", "1 +"];
  assert.ok(refusedIn([...later, "for await (const each of []) each();"]).every(Boolean));
  const taken = "let a; a ??= 1; class B { #c = 1; #d() { return this.#c; } async e() { await 1; } }";
  assert.deepEqual(refusedIn([taken]), [""]);
});

test("the types name all that is exported, and no more", () => {
  const text = readFileSync(`${FOLDER}/polyover.d.ts`, "utf8");
  const named = [...text.matchAll(/^export (?:class|const|function) (\w+)/gm)].map(([, name]) => name);
  assert.deepEqual([...new Set(named)].sort(), Object.keys(polyover).sort());
});
