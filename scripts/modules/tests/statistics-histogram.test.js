// Counts of whole numbers, by their definitions.

import assert from "node:assert/strict";
import { test } from "node:test";

import { Histogram } from "../statistics/histogram.js";
import { randomOf } from "./support/random.js";

function histogramOf(numbers) {
  const histogram = new Histogram();
  numbers.forEach((number) => histogram.add(number));
  return histogram;
}

function numbersOf(random) {
  return Array.from({ length: random.below(40) }, () => {
    const number = Math.floor(random.below(2 ** 32) * 2 ** random.between(-31, 20));
    return random.once(9) ? -number - 1 : number;
  });
}

/** The least number that so many hundredths do not exceed, by its definition. */
function quantileOf(numbers, percent) {
  const enough = (one) => 100 * numbers.filter((other) => other <= one).length >= percent * numbers.length;
  return [...numbers].sort((one, other) => one - other).find(enough) ?? 0;
}

test("histograms", () => {
  const random = randomOf(2);
  const edges = [16383, 16384, 16385, 32767, 32768, 32769, 32770, 65535, 65536, 2 ** 40 - 1, 2 ** 53 - 1, 0];
  const cases = Array.from({ length: 1000 }, () => [numbersOf(random), numbersOf(random)]);
  for (const [first, second] of [...cases, [edges, []]]) {
    const all = [...first, ...second];
    const both = histogramOf(first).withThoseOf(histogramOf(second));
    assert.deepEqual([both.total, both.most], [all.length, Math.max(0, ...all)]);
    assert.equal(both.least, all.length > 0 ? Math.min(...all) : 0);
    for (const percent of [1, 50, 90, 99, 100]) {
      const [got, exact] = [both.quantile(percent), quantileOf(all, percent)];
      assert.ok(got <= exact && got >= exact - Math.abs(exact) * 0.00013, `${percent} % of ${all}: ${got}`);
    }
    const limit = random.below(16384) + 0.5;
    assert.equal(both.above(limit), all.filter((number) => number > limit).length);
  }
});
