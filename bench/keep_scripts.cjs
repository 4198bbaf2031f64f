'use strict';
// Copies recorded snapshots, each with the scripts alone whose urls begin with a prefix, and with the map entries of these.
//
//     NODE_V8_COVERAGE=raw node SCRIPT
//     node bench/keep_scripts.cjs raw examples/cov file:///app/
//
// The files are named process-0.json, process-1.json and so on, in the order of the recorded names. Nothing else is changed.
const fs = require('fs');
const path = require('path');

const [from, to, prefix] = process.argv.slice(2);
if (prefix === undefined) {
  console.error('usage: node keep_scripts.cjs FOLDER OUT PREFIX');
  process.exit(2);
}
fs.mkdirSync(to, { recursive: true });
const names = fs.readdirSync(from).filter((name) => name.endsWith('.json')).sort();
for (const [place, name] of names.entries()) {
  const snapshot = JSON.parse(fs.readFileSync(path.join(from, name), 'utf8'));
  snapshot.result = snapshot.result.filter((script) => script.url.startsWith(prefix));
  const maps = snapshot['source-map-cache'];
  if (maps !== undefined) {
    snapshot['source-map-cache'] = Object.fromEntries(Object.entries(maps).filter(([url]) => url.startsWith(prefix)));
  }
  fs.writeFileSync(path.join(to, `process-${place}.json`), JSON.stringify(snapshot) + '\n');
}
