import { parse } from './parse';
import { Ledger } from './ledger';

function report(lines: string[]): string {
  const ledger = new Ledger();
  for (const line of lines) {
    const entry = parse(line);
    if (entry === undefined) {
      return `not an entry: ${line}`;
    }
    ledger.add(entry);
  }
  return ledger.text();
}

console.log(report(process.argv.slice(2)));
