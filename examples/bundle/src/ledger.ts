import type { Entry } from './parse';

export class Ledger {
  private readonly sums = new Map<string, number>();

  add(entry: Entry): void {
    const held = this.sums.get(entry.account);
    if (held === undefined) {
      this.sums.set(entry.account, entry.cents);
    } else {
      this.sums.set(entry.account, held + entry.cents);
    }
  }

  text(): string {
    if (this.sums.size === 0) {
      return 'no entry';
    }
    return [...this.sums].map(([account, cents]) => `${account} ${money(cents)}`).join('\n');
  }
}

function money(cents: number): string {
  if (cents < 0) {
    return `-${money(-cents)}`;
  }
  return `${Math.trunc(cents / 100)}.${String(cents % 100).padStart(2, '0')}`;
}
