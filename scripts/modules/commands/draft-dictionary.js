import { Survey, draftOfSurvey } from "../dictionary/draft.js";
import { run, wordsOf, writeText } from "../system/command.js";
import { rowsOfInput } from "../system/input.js";

run(async () => {
  wordsOf();
  const survey = new Survey();
  for await (const rows of rowsOfInput()) survey.takeSome(rows);
  writeText(draftOfSurvey(survey));
});
