import { FORMS } from "../capture/forms.js";
import { misuse } from "./command.js";

/** The options that say which form a capture has. */
export const FORM_OPTIONS = { two: /** @type {true} */ (true), arrivals: /** @type {true} */ (true) };

/** @param {{ two?: boolean, arrivals?: boolean }} values */
export function formAsked({ two, arrivals }) {
  if (two && arrivals) throw misuse("argument --arrivals: not allowed with argument --two");
  return arrivals ? FORMS.arrivals : FORMS[two ? 2 : 1];
}
