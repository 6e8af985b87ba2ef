import { Flipper } from "../capture/flip.js";
import { run, whole, wordOf, wordsOf, write } from "../system/command.js";
import { standardInput } from "../system/input.js";

run(async () => {
  const words = wordsOf({}, ["PLACE"], Infinity).words.map((word) => wordOf("PLACE", word, whole));
  const flipper = new Flipper([...new Set(words)].sort((one, other) => one - other));
  for await (const piece of standardInput()) write(flipper.take(piece));
  flipper.end();
});
