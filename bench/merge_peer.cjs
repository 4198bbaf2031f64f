// Merges a folder of snapshots by @bcoe/v8-coverage (in Debian's node-jest-debbundle), and prints the result.
// usage: NODE_PATH=.. node merge_peer.cjs FOLDER
'use strict';
const fs = require('node:fs');
const path = require('node:path');
const { mergeProcessCovs } = require('@bcoe/v8-coverage');

const folder = process.argv[2];
const names = fs.readdirSync(folder).filter((name) => name.endsWith('.json')).sort();
const covs = names.map((name) => ({ result: JSON.parse(fs.readFileSync(path.join(folder, name), 'utf8')).result }));
process.stdout.write(JSON.stringify(mergeProcessCovs(covs)));
