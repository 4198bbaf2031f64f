import { discounted, find } from './prices';

declare const process: { argv: string[] };

function total(names: string[], share: number): number {
  let sum = 0;
  for (const name of names) {
    const item = find(name);
    if (item === undefined) {
      console.log(`no price for ${name}`);
      continue;
    }
    sum += discounted(item.price, share);
  }
  return sum;
}

/* c8 ignore start */
function usage(): void {
  console.log('usage: main NAME..');
}
/* c8 ignore stop */

const names = process.argv.slice(2);
if (names.length === 0) {
  usage();
} else {
  console.log(`total ${total(names, 0)}`);
}
