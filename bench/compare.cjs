// Compares a merged file with an independent sum of the snapshots that it was made of.
// usage: node bench/compare.cjs FOLDER MERGED.json
// For each function of each script it adds, in BigInt, the root counts and the innermost counts at every offset at which
// some range begins or ends, and counts where the merged file says otherwise. It ends with status 1 where it differs.
'use strict';
const fs = require('node:fs');
const path = require('node:path');

// Counts as BigInt: those past 2^53 would lose digits as numbers.
function read(file) {
  const text = fs.readFileSync(file, 'utf8').replace(/("count":\s*)(\d+)/g, '$1"$2"');
  return JSON.parse(text).result;
}

function keyOf(url, report) {
  const root = report.ranges[0];
  return JSON.stringify([url, root.startOffset, root.endOffset, report.functionName]);
}

// The count of the shortest range that has the offset, of equally short ones the last.
function inner(ranges, offset) {
  let best = null;
  for (const range of ranges) {
    if (range.startOffset <= offset && offset < range.endOffset) {
      const size = range.endOffset - range.startOffset;
      if (best === null || size <= best.size) best = { size, count: BigInt(range.count) };
    }
  }
  return best === null ? 0n : best.count;
}

function reportsByKey(files) {
  const all = new Map();
  for (const file of files) {
    for (const script of read(file)) {
      for (const report of script.functions) {
        const key = keyOf(script.url, report);
        if (!all.has(key)) all.set(key, []);
        all.get(key).push(report);
      }
    }
  }
  return all;
}

function pointsOf(reports, merged) {
  const points = new Set();
  const { startOffset, endOffset } = merged.ranges[0];
  for (const report of [...reports, merged]) {
    for (const range of report.ranges) {
      for (const offset of [range.startOffset, range.endOffset]) {
        if (startOffset <= offset && offset < endOffset) points.add(offset);
      }
    }
  }
  return points;
}

function main() {
  const [folder, mergedFile] = process.argv.slice(2);
  const files = fs.readdirSync(folder).filter((name) => name.endsWith('.json')).sort().map((name) => path.join(folder, name));
  const given = reportsByKey(files);
  const merged = reportsByKey([mergedFile]);
  let points = 0;
  let differences = given.size === merged.size ? 0 : 1;
  for (const [key, reports] of given) {
    const [one, ...more] = merged.get(key) ?? [];
    if (one === undefined || more.length > 0) {
      differences += 1;
      continue;
    }
    const root = reports.reduce((sum, report) => sum + BigInt(report.ranges[0].count), 0n);
    if (root !== BigInt(one.ranges[0].count)) differences += 1;
    if (reports.some((report) => report.isBlockCoverage) !== one.isBlockCoverage) differences += 1;
    for (const offset of pointsOf(reports, one)) {
      points += 1;
      const sum = reports.reduce((total, report) => total + inner(report.ranges, offset), 0n);
      if (sum !== inner(one.ranges, offset)) differences += 1;
    }
  }
  console.log(`functions ${given.size} points ${points} differences ${differences}`);
  process.exit(differences === 0 ? 0 : 1);
}

main();
