// Drafts of dictionaries, as they were kept.

import assert from "node:assert/strict";
import { test } from "node:test";

import { draftOf } from "../dictionary/draft.js";
import { Fault } from "../fault.js";
import { compare } from "./support/golden.js";
import { rowsOf } from "./support/listing.js";
import { madeListing } from "./support/made_listing.js";

const NO_TYPE = "the listing has no frame of a type";

function draftOrNothing(listing) {
  try {
    return draftOf(rowsOf(listing));
  } catch (fault) {
    assert.ok(fault instanceof Fault && fault.message === NO_TYPE, fault);
    return "";
  }
}

test("random listings", () => {
  const drafts = Array.from({ length: 150 }, (_, at) => draftOrNothing(madeListing(at, at % 2 === 0)));
  compare("drafts", drafts);
  const words = ["Not marked", "No command", "No answer", "the one", "Left out"];
  for (const word of words) {
    assert.ok(drafts.join("").includes(word), `no draft that says: ${word}`);
  }
});

test("a listing without a typed frame is a fault", () => {
  assert.throws(() => draftOf(rowsOf("8 40 frame 1083452c\n")), new Fault(NO_TYPE));
});
