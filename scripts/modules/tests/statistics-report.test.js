// The report, as it was kept.

import assert from "node:assert/strict";
import { test } from "node:test";

import { Bus } from "../statistics/bus.js";
import { report } from "../statistics/report.js";
import { compare } from "./support/golden.js";
import { rowsOf } from "./support/listing.js";
import { madeDamage, madeListing } from "./support/made_listing.js";

const RATES = [153600, 9600, 1, 7, 1_000_003, 12_000_000];

function reportOf(rate, listing) {
  const bus = new Bus(rate);
  bus.takeAll(rowsOf(listing));
  return report(bus);
}

function compareReports(name, cases) {
  const reports = cases.map(([rate, listing]) => reportOf(rate, listing));
  compare(name, reports);
  return reports.join("");
}

function madeCases(first, count) {
  const seeds = Array.from({ length: count }, (_, at) => first + at);
  return seeds.map((seed) => [RATES[(seed >> 1) % RATES.length], madeListing(seed, seed % 2 === 1)]);
}

test("random listings of one line and of two, at several rates", () => {
  const wanted = compareReports("reports", madeCases(1, 400));
  const words = ["are lacking", "is silent", "but others", "in a row from", "s: after", "may have been spoilt"];
  words.push("of another length", "a type that it lacks", "Most of it lies here", "spread over the time");
  words.push("lines exchanged", "more of this sort", "In place of the answer", "Nothing is damaged", "is empty");
  for (const word of words) {
    assert.ok(wanted.includes(word), `no listing of which the report says: ${word}`);
  }
});

test("damage in bursts and spread, in more slots of time than are kept apart", () => {
  const seeds = Array.from({ length: 40 }, (_, at) => at);
  const wanted = compareReports("damage", seeds.map((seed) => [RATES[seed % RATES.length], madeDamage(seed)]));
  for (const word of ["Most of it lies here", "spread over the time"]) {
    assert.ok(wanted.includes(word), `no listing of which the report says: ${word}`);
  }
});
