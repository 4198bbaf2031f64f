#!/usr/bin/env node
// What c8 does with a folder that NODE_V8_COVERAGE wrote: merge, convert script by script with the maps of the snapshots' own
// cache, and report. Beside `report FOLDER --as lcov` or `--as text` for time and memory.
//
//     NODE_PATH=/usr/share/nodejs bench/c8_path.cjs FOLDER [lcovonly|text|html|json] [OUT]
//
// Debian's packages node-jest-debbundle (@bcoe/v8-coverage, v8-to-istanbul), node-istanbul and node-make-dir have the libraries.
// A script whose file is absent, or that is refused, is left out, as c8 does. This is not part of the gate.
'use strict';

const fs = require('node:fs');
const path = require('node:path');
const { fileURLToPath } = require('node:url');
const { mergeProcessCovs } = require('@bcoe/v8-coverage');
const v8ToIstanbul = require('v8-to-istanbul');
const coverage = require('istanbul-lib-coverage');
const library = require('istanbul-lib-report');
const reports = require('istanbul-reports');

const [folder, form = 'lcovonly', out = '/dev/null'] = process.argv.slice(2);

// The snapshots of the folder, files alone, and the first map entry of each url.
function read() {
  const maps = new Map();
  const snapshots = [];
  for (const name of fs.readdirSync(folder).filter((it) => it.endsWith('.json')).sort()) {
    const snapshot = JSON.parse(fs.readFileSync(path.join(folder, name), 'utf8'));
    for (const [url, entry] of Object.entries(snapshot['source-map-cache'] ?? {})) {
      if (!maps.has(url)) maps.set(url, entry);
    }
    snapshots.push({ result: snapshot.result.filter((script) => script.url.startsWith('file://')) });
  }
  return { merged: mergeProcessCovs(snapshots), maps };
}

// The generated text isn't there, but the lengths of its lines.
function sources(entry) {
  if (!entry?.data) return {};
  return { source: entry.lineLengths.map((length) => '.'.repeat(length)).join('\n'), sourceMap: { sourcemap: entry.data } };
}

async function convert(script, entry) {
  const converter = v8ToIstanbul(fileURLToPath(script.url), 0, sources(entry));
  await converter.load();
  converter.applyCoverage(script.functions);
  const found = converter.toIstanbul();
  if (converter.sourceMap?.destroy) converter.destroy();
  return found;
}

async function main() {
  const { merged, maps } = read();
  const map = coverage.createCoverageMap({});
  let left = 0;
  for (const script of merged.result) {
    try {
      map.merge(await convert(script, maps.get(script.url)));
    } catch (error) {
      left += 1;
      if (process.env.VERBOSE) console.error(`${script.url}: ${error.message}`);
    }
  }
  const context = library.createContext({ dir: form === 'html' ? out : path.dirname(out), coverageMap: map });
  const options = form === 'html' || form === 'text' ? {} : { file: path.basename(out) };
  reports.create(form, options).execute(context);
  const { lines, branches, functions } = map.getCoverageSummary();
  console.error(`files ${map.files().length}, left out ${left}, lines ${lines.pct}, branches ${branches.pct}, functions ${functions.pct}`);
}

main();
