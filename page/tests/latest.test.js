import assert from "node:assert/strict";
import { test } from "node:test";
import { latest } from "../src/view/latest.js";

const answers = new Map([["first", 1], ["last", 3], ["after", 4]]);

test("what was asked last is shown, and a fault keeps nothing from being asked again", async () => {
  const shown = [];
  const answerTo = async (word) => answers.get(word) ?? Promise.reject(new Error(word));
  const ask = latest(answerTo, (answer) => shown.push(answer));
  const [all] = ["first", "between", "last"].map((word) => ask(word));
  await all;
  assert.deepEqual(shown, [1, 3]);
  await assert.rejects(ask("no answer"));
  await ask("after");
  assert.deepEqual(shown, [1, 3, 4]);
});
