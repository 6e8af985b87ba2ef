import { Unpacker } from "../capture/unpack.js";
import { run, wordsOf, write } from "../system/command.js";
import { FORM_OPTIONS, formAsked } from "../system/form.js";
import { standardInput } from "../system/input.js";

run(async () => {
  const unpacker = new Unpacker(formAsked(wordsOf(FORM_OPTIONS).values), write);
  for await (const octets of standardInput()) unpacker.take(octets);
  unpacker.end();
});
