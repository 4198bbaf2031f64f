export interface Item {
  name: string;
  price: number;
}

const items: Item[] = [
  { name: 'apple', price: 30 },
  { name: 'bread', price: 250 },
];

export function find(name: string): Item | undefined {
  return items.find((item) => item.name === name);
}

export function discounted(price: number, share: number): number {
  if (share <= 0) {
    return price;
  }
  return Math.round(price * (1 - share));
}
