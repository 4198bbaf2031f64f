export interface Entry {
  account: string;
  cents: number;
}

// `ACCOUNT=CENTS`
export function parse(line: string): Entry | undefined {
  const at = line.indexOf('=');
  if (at < 0) {
    return undefined;
  }
  const cents = Number(line.slice(at + 1));
  if (!Number.isInteger(cents)) {
    return undefined;
  }
  return { account: line.slice(0, at), cents };
}
