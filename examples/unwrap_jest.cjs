'use strict';
// Copies snapshots that jest's tests wrote, with the offsets of the project's own texts.
//
//     NODE_V8_COVERAGE=raw jest --transform '{}'
//     node unwrap_jest.cjs raw cov
//
// jest runs each file inside a function of its own, so that V8's offsets count jest's text before it. This takes that off, and
// gives the module the ranges of jest's function. A file that a transform changed has other offsets, and is left out, as is each
// script that jest didn't wrap.
const fs = require('fs');
const path = require('path');
const { fileURLToPath } = require('url');

const [from, to] = process.argv.slice(2);
if (to === undefined) {
  console.error('usage: node unwrap_jest.cjs FOLDER OUT');
  process.exit(2);
}

const WRAPPER = 'Object.<anonymous>';
// What jest writes: {"Object.<anonymous>":function(module,exports,require,__dirname,__filename,jest){ before, and this behind.
const BEHIND = '\n}});';
const BEFORE = 82;

/** The script with its own offsets, or none. */
function unwrapped(script) {
  const [root, inner, ...others] = script.functions;
  if (!script.url.startsWith('file:///') || inner?.functionName !== WRAPPER || !fs.existsSync(fileURLToPath(script.url))) return [];
  const length = fs.readFileSync(fileURLToPath(script.url), 'utf8').length;
  if (root.ranges[0].endOffset !== BEFORE + length + BEHIND.length) return [];
  const within = (offset) => Math.min(Math.max(offset - BEFORE, 0), length);
  const moved = ({ startOffset, endOffset, count }) => ({ startOffset: within(startOffset), endOffset: within(endOffset), count });
  const functions = [{ ...inner, functionName: '' }, ...others].map((one) => ({ ...one, ranges: one.ranges.map(moved) }));
  return [{ ...script, functions }];
}

fs.mkdirSync(to, { recursive: true });
for (const name of fs.readdirSync(from).filter((one) => one.endsWith('.json'))) {
  const snapshot = JSON.parse(fs.readFileSync(path.join(from, name), 'utf8'));
  fs.writeFileSync(path.join(to, name), JSON.stringify({ result: snapshot.result.flatMap(unwrapped) }) + '\n');
}
