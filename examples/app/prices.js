'use strict';

const prices = { apple: 30, bread: 250, milk: 120 };

function priceOf(item) {
  if (!(item in prices)) {
    throw new Error(`no price for ${item}`);
  }
  return prices[item];
}

function discounted(price, share) {
  return share > 0 ? Math.round(price * (1 - share)) : price;
}

module.exports = { priceOf, discounted };
