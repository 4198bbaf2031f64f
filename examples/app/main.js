'use strict';

const { priceOf, discounted } = require('./prices.js');

function total(items, share) {
  let sum = 0;
  for (const item of items) {
    sum += discounted(priceOf(item), share);
  }
  return sum;
}

function receipt(items, share) {
  const lines = items.map((item) => `${item} ${priceOf(item)}`);
  return [...lines, `total ${total(items, share)}`].join('\n');
}

const words = process.argv.slice(2);
console.log(receipt(words.length > 0 ? words : ['apple', 'bread'], 0));
