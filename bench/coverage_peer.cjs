#!/usr/bin/env node
// Loads coverage files by istanbul-lib-coverage, and prints the totals of statements, branches, functions and lines.
//
//     bench/coverage_peer.cjs FILE..
//
// Debian's package node-istanbul has the library. This is not part of the gate.
'use strict';

const fs = require('fs');

function library(name) {
    for (const place of [name, `/usr/share/nodejs/${name}`, `/usr/share/nodejs/istanbul/node_modules/${name}`]) {
        try {
            return require(place);
        } catch (error) {
            if (error.code !== 'MODULE_NOT_FOUND') throw error;
        }
    }
    throw new Error(`${name} is not installed`);
}

const coverage = library('istanbul-lib-coverage');

for (const file of process.argv.slice(2)) {
    const map = coverage.createCoverageMap(JSON.parse(fs.readFileSync(file, 'utf8')));
    const summary = map.getCoverageSummary().toJSON();
    console.log(`${file}: files ${map.files().length}`);
    for (const kind of ['statements', 'branches', 'functions', 'lines']) {
        const { covered, total, pct } = summary[kind];
        console.log(`${kind} ${covered} of ${total} ${pct}`);
    }
}
