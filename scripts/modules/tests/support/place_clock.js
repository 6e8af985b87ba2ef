// A watch whose clock is that of the bus: node --import place_clock.js .. bus-watch.js FOLDER ..
//
// PORT1_CLOCK has the place on the bus where its bits begin, and the places that are lost on the way. Each piece comes
// when its last bit was sent, however busy the computer is.

import { CLOCKS, Wall } from "../../watch/wall.js";

/** Places in a second, and when place 0 of the bus was, in seconds since 1970, as the tests have it. */
const [RATE, ZERO] = [153600, 1795748400];

const { begin, lost } = JSON.parse(process.env.PORT1_CLOCK ?? '{ "begin": 0, "lost": [] }');

let now = begin / RATE;

const { take } = Wall.prototype;

Wall.prototype.take = function (place) {
  let at = begin + place;
  for (const [first, past] of lost) if (begin <= first && first < at) at += past - first;
  now = at / RATE;
  return take.call(this, place);
};

Object.assign(CLOCKS, { steady: () => now, wall: () => ZERO + now });
