import { packed } from "../capture/pack.js";
import { run, wordsOf, write } from "../system/command.js";
import { FORM_OPTIONS, formAsked } from "../system/form.js";
import { standardInput } from "../system/input.js";

run(async () => {
  const form = formAsked(wordsOf(FORM_OPTIONS).values);
  for (const octets of await packed(form, standardInput())) write(octets);
});
