import { KINDS } from "../../../scripts/modules/listing/kinds.js";
import { RATE } from "../../../scripts/modules/port1.js";
import { counted } from "../../../scripts/modules/text.js";
import { aboutOf, causeOf } from "../../../scripts/modules/watch/words.js";
import { deskIn } from "../worker/lent.js";
import { Banners } from "./banners.js";
import { Clock } from "./clock.js";
import { restOf } from "./command.js";
import { DictionaryPane } from "./dictionary.js";
import { element, fillList, make, save } from "./dom.js";
import { engineOf, unpacked } from "./embedded.js";
import { fieldsOf, Files, fill, NOT_ALL_CHOSEN, textOf } from "./files.js";
import { Heading } from "./heading.js";
import { Incidents, incidentsAmong, shownOf } from "./incidents.js";
import { FORMS } from "./job.js";
import { Help, isOther } from "./keys.js";
import { LINES_KEYS } from "./lines.js";
import { NAVIGATION_KEYS, Navigation } from "./navigation.js";
import { Replies } from "./replies.js";
import { showDamage, showTable } from "./report.js";
import { TIMELINE_KEYS } from "./timeline.js";
import { grouped } from "./units.js";
import { Verdict } from "./verdict.js";
import { isOfDictionary, placeOf, whyNot } from "./words.js";

/** @typedef {import("../../../scripts/modules/recording/doubts.js").Warning} Warning */
/** @typedef {import("../worker/lent.js").Desks} Desk */
/** @typedef {import("../worker/desk.js").Found} Found */
/** @typedef {import("../worker/summary.js").Summary} Summary */
/** @typedef {import("./given.js").Given} Given */
/** @typedef {import("./heading.js").Report} Report */
/** @typedef {import("./incidents.js").Incident} Incident */
/** @typedef {import("./job.js").Asked} Asked */
/** @typedef {import("./job.js").CaptureKind} CaptureKind */
/** @typedef {import("./job.js").Chosen} Chosen */
/** @typedef {import("./job.js").Embedded} Embedded */

const NO_ENGINE =
  "This browser runs no WebAssembly, which the decoder is: listings that port1 wrote are shown all the same.";

const WIRES = "TXC, TXD, RXC, RXD, in this order";

/** What is said where the page judges by a dictionary of its own. */
const DRAFTED = "Judged by a draft of a dictionary: what no station ever answered is not missed.";

/** Of so many files it is told why they cannot be read. */
const MOST_TOLD = 3;

/** @typedef {import("./keys.js").Key & { act: (page: Page, key: string) => void }} PageKey */

/** @type {PageKey[]} */
const KEYS = [
  ...NAVIGATION_KEYS.map(({ act, ...key }) => ({
    ...key,
    act: (/** @type {Page} */ page, /** @type {string} */ name) => act(page.navigation, name),
  })),
  { keys: ["w"], shown: "w", words: "wires and form", act: (page) => page.toggleSettings() },
];

/**
 * Keys without a file, too.
 * @type {PageKey[]}
 */
const KEYS_ALWAYS = [
  { keys: ["Escape"], shown: "Esc", words: "stop reading a file", act: (page) => page.desk.stop() },
  { keys: ["o"], shown: "o", words: "open a file", act: (page) => page.files.choose() },
  { keys: ["?"], shown: "?", words: "these keys", act: (page) => page.help.open() },
];

/** The page: what was chosen, and the parts that show it. */
class Page {
  /** @param {Desk} desk */
  constructor(desk) {
    this.desk = desk;
    /** @type {import("./heading.js").About} */
    this.about = JSON.parse(element("about").textContent);
    this.engine = engineOf();
    /** @type {File[]} */
    this.chosen = [];
    /** @type {Found} */
    this.found = { form: "other", channels: [] }; // of the chosen file, once the worker has looked at it
    this.guessed = ""; // channels that were taken by their numbers
    /** @type {import("../worker/desk.js").Begin|null} */
    this.zero = null; // of the chosen file, where it is known
    this.clock = new Clock(RATE);
    /** @type {Asked|Embedded|null} */
    this.asked = null;
    /** @type {Asked|Embedded|null} */
    this.job = null; // of what is shown
    /** @type {Incident|null} */
    this.incident = null; // that is shown
    /** @type {ReturnType<Page["choice"]>|null} */
    this.kept = null; // what was chosen for what is shown
    this.files = new Files((given) => this.takeAll(given).catch((fault) => this.refuse(fault, true)));
    this.incidents = new Incidents((incident) => this.open(incident).catch((fault) => this.refuse(fault, true)));
    this.navigation = new Navigation(desk);
    const { tabs } = this.navigation;
    const isNarrow = this.engine !== null && !this.engine.isWide;
    this.heading = new Heading(this.about, isNarrow, () => tabs.open("dictionary"));
    this.verdict = new Verdict((name) => this.navigation.showKind(name));
    this.banners = new Banners((act, warning) => this.mend(act, warning).catch((fault) => this.refuse(fault)));
    this.dictionary = new DictionaryPane(desk, this.about.schema, this.heading.bar, () => this.readAgain());
    this.replies = new Replies();
    this.help = new Help([["Page", [...KEYS, ...KEYS_ALWAYS]], ["Timeline", TIMELINE_KEYS], ["Listing", LINES_KEYS]]);
    this.state("empty");
    this.listen();
    element("query-kind").replaceChildren(make("option", ""), ...KINDS.map((kind) => make("option", kind)));
    if (!this.engine && !element("listing-data")) this.say(NO_ENGINE);
  }

  listen() {
    element("file").addEventListener("change", () => this.look().catch((fault) => this.refuse(fault, true)));
    element("settings").addEventListener("submit", (event) => {
      event.preventDefault();
      this.read();
    });
    document.addEventListener("keydown", (event) => this.pressed(event));
    this.onClick("stop", () => this.desk.stop());
    this.onClick("draft", () => this.begin());
    this.onClick("example", () => this.showExample());
    this.onClick("choose-files", () => this.files.choose());
    this.onClick("choose-folder", () => this.files.choose("folder"));
    this.onClick("open-another", () => this.files.choose());
    this.onClick("show-settings", () => this.toggleSettings());
    this.onClick("save", async () => save("listing.txt", new Blob(await this.desk.texts())));
    this.onClick("save-summary", async () => save("summary.txt", new Blob([await this.desk.summaryText()])));
  }

  /**
   * Says why a file cannot be read. Where that is another one than the one that is shown, nothing is shown any more.
   * @param {Error} fault
   * @param {boolean} [isOther]
   */
  refuse(fault, isOther = false) {
    if (isOther) this.clear();
    this.say(whyNot(fault.message), true);
  }

  /** Shows no file. */
  clear() {
    Object.assign(this, { job: null, asked: null, kept: null });
    element("result").hidden = true;
    element("facts").replaceChildren();
    element("title").textContent = document.title = "Port 1 analyser";
    element("draft").disabled = true;
    const isAsked = this.chosen.length > 1; // which of them is to be read
    this.state(this.incidents.all.length > 1 ? "list" : isAsked ? "asking" : "empty");
  }

  /** @param {string} id @param {() => void|Promise<void>} act */
  onClick(id, act) {
    element(id).addEventListener("click", () => Promise.resolve(act()).catch((fault) => this.say(fault.message, true)));
  }

  /**
   * How far the page is: empty, asking for wires, with a list of incidents, or with a result.
   * @param {"empty"|"asking"|"list"|"result"} name
   */
  state(name) {
    document.body.dataset.state = name;
  }

  toggleSettings(isOpen = !document.body.classList.contains("settings-open")) {
    document.body.classList.toggle("settings-open", isOpen);
    element("show-settings").setAttribute("aria-expanded", String(isOpen));
    /** @type {NodeListOf<HTMLSelectElement>} */
    const fields = element("settings").querySelectorAll("select:enabled");
    if (isOpen) [...fields].find((field) => field.offsetParent !== null)?.focus();
  }

  /**
   * Keys for the whole page, where none is typed into a field.
   * @param {KeyboardEvent} event
   */
  pressed(event) {
    const keys = element("result").hidden ? KEYS_ALWAYS : [...KEYS, ...KEYS_ALWAYS];
    const isStop = event.key === "Escape" && this.isReading && !this.help.dialog.open; // also from within a field
    const found = isOther(event) && !isStop ? undefined : keys.find((some) => some.keys.includes(event.key));
    if (!found) return;
    event.preventDefault();
    found.act(this, event.key);
  }

  /** Reads the example that is in the page. */
  async showExample() {
    /** @type {Record<string, string>} */
    const texts = JSON.parse(await (await unpacked("example-data")).text());
    await this.take(Object.entries(texts).map(([name, text]) => new File([text], name)), { isExample: true });
  }

  /** Begins a dictionary from what is on the bus, in place of the one that is there, and reads with it. */
  async begin() {
    const text = this.job?.form === "listing" ? await this.desk.draft() : ""; // bits are read by a draft
    await this.dictionary.take({ text, name: "", from: "user" });
    await this.read();
    this.navigation.tabs.open("dictionary");
  }

  /**
   * Tells how things are.
   * @param {string} text
   */
  say(text, isFault = false, isSeen = isFault) {
    element("status").textContent = text;
    element("status").classList.toggle("fault", isFault);
    element("status").classList.toggle("seen", isSeen);
  }

  /**
   * How much of a file was read, as the worker tells it.
   * @param {number} progress
   */
  hear(progress) {
    element("progress").value = progress;
  }

  get isReading() {
    return document.body.classList.contains("reading");
  }

  /** @param {boolean} isReading */
  setReading(isReading) {
    document.body.classList.toggle("reading", isReading);
    this.hear(0);
    element("reading").hidden = element("progress").hidden = !isReading;
    element("read").disabled = isReading;
  }

  /**
   * Takes what was given: incidents, of which one is shown and of several a list; of a folder the files that can be
   * read; or files.
   * @param {Given[]|Promise<Given[]>} given
   */
  async takeAll(given) {
    const all = await given;
    const { incidents, broken } = await incidentsAmong(all);
    if (broken.length > 0) throw new Error(`${broken.join(", ")} tells nothing of an incident.`);
    if (incidents.length > 0) this.incidents.show(incidents);
    if (incidents.length === 1) await this.open(incidents[0]);
    else if (incidents.length > 1) this.list(incidents.length);
    else await this.take(all.map(({ file }) => file), { isFolder: all.some(({ path }) => path.includes("/")) });
  }

  /**
   * Waits for one of several incidents to be chosen.
   * @param {number} count
   */
  list(count) {
    element("result").hidden = true;
    this.state("list");
    this.say(`${count} incidents.`);
    element("incident-list").querySelector("button")?.focus();
  }

  /**
   * Shows an incident, and where it is in its bits.
   * @param {Incident} incident
   */
  async open(incident) {
    const shown = shownOf(incident, this.engine !== null);
    if (shown === null) throw new Error(`${incident.path} has neither bits.ts2 nor listing.txt.`);
    const dictionary = incident.files.get("cabinet.toml");
    await this.dictionary.forget();
    if (dictionary) await this.takeDictionary(dictionary, true);
    this.chosen = [shown.file];
    this.files.offer(this.chosen);
    this.zero = shown.begin;
    this.incident = incident;
    this.incidents.choose(incident);
    await this.look();
    if (this.job?.file !== shown.file) return; // it could not be read
    const from = incident.place - shown.first;
    const { cause, words } = aboutOf(incident.causes);
    const whole = { row: -1, first: from, past: from + incident.seconds * RATE, text: `incident: ${words}` };
    const found = await this.desk.placeOfCause(cause, whole.first, whole.past);
    const own = found === null ? whole : { ...found, text: causeOf(cause).words };
    const row = own.row < 0 ? await this.desk.rowFrom(Math.round(from)) : own.row;
    this.navigation.showChosen({ ...own, row, upTo: own.past, reply: null, derived: "" });
    if (row >= 0) await this.navigation.showLine(row);
  }

  /**
   * Takes a dictionary: the user's, or one that came with what is shown.
   * @param {File} file
   * @param {boolean} isOfFile
   */
  async takeDictionary(file, isOfFile) {
    await this.dictionary.take({ text: await textOf(file), name: file.name, from: isOfFile ? "file" : "user" });
  }

  /**
   * Files by what they are: dictionaries, others that can be read, and why the rest cannot.
   * @param {File[]} files
   */
  async sorted(files) {
    /** @type {[File[], File[], string[]]} */
    const [dictionaries, rest, others] = [[], [], []];
    for (const file of files) {
      const { form, why } = await this.lookAt(file);
      if (form === "dictionary") dictionaries.push(file);
      else if (form === "other") others.push(`${file.name} is ${why}`);
      else rest.push(file);
    }
    return { dictionaries, rest, others };
  }

  /**
   * Takes files: dictionaries into their field, the rest to choose from.
   * @param {File[]} files
   * @param {{ isFolder?: boolean, isExample?: boolean }} how a folder may have others beside
   */
  async take(files, { isFolder = false, isExample = false }) {
    const { dictionaries, rest, others } = await this.sorted(files);
    if (rest.length > 0) await this.dictionary.forget();
    for (const file of dictionaries) await this.takeDictionary(file, isExample);
    if (rest.length > 0) {
      Object.assign(this, { chosen: rest, zero: null, incident: null });
      this.incidents.show([]);
      this.files.offer(rest);
      await this.look();
    } else if (others.length > 0) {
      this.clear();
    } else if (this.file) {
      await this.read();
    } else {
      this.say("The dictionary is kept. Now drop a recording.");
    }
    const more = others.length > MOST_TOLD ? ` ${others.length - MOST_TOLD} other files cannot be read either.` : "";
    const told = isFolder && rest.length > 0 ? "" : others.slice(0, MOST_TOLD).join(" ") + more;
    if (told) this.say(told, true);
  }

  get file() {
    return this.chosen[element("file").selectedIndex];
  }

  /**
   * What a file is.
   * @param {File} file
   */
  lookAt(file) {
    return this.desk.lookAt(file).catch(({ message }) => {
      throw new Error(`${file.name}: ${whyNot(message)}`);
    });
  }

  /** Looks at the chosen file, and reads it at once where nothing is to be asked. */
  async look() {
    this.found = { form: "other", channels: [] };
    this.files.offerChannels([]);
    this.found = await this.lookAt(this.file);
    const { channels } = this.found;
    element("form").value = "";
    element("read").disabled = false;
    element("ask").textContent = "";
    for (const id of /** @type {const} */ (["falling", "inverted-1", "inverted-2"])) element(id).checked = false;
    const how = this.files.offerChannels(channels);
    this.guessed = how === "ordered" ? this.files.channels().join(", ") : "";
    if (channels.length === 0 || how === "named" || how === "ordered") {
      await this.read();
      return;
    }
    this.clear();
    this.state("asking");
    element("ask").textContent = `${this.file.name} has ${counted(channels.length, "channel")}. Which is which wire?`;
    this.say("Say which channels the recording has, then read it.");
    /** @type {HTMLSelectElement} */ (element("channels").querySelector("select")).focus();
  }

  /** @param {File} file @returns {Asked} */
  jobOf(file) {
    const chosen = FORMS[element("form").value] ?? /** @type {Chosen} */ (this.found); // no other file is taken
    const kind = /** @type {CaptureKind} */ (1);
    return {
      ...{ kind, ...chosen, channels: this.found.channels.length > 0 ? this.files.channels() : [] },
      ...{ rising: !element("falling").checked, inverted: this.files.inverted(), file },
      rest: restOf(element("rest").value),
      rate: Number(element("rate").value) || RATE,
      dictionary: this.dictionary.text,
      begin: this.zero,
      engine: this.engine,
    };
  }

  /** Reads the chosen file and shows what is in it. */
  async read() {
    const { file } = this;
    this.setReading(true);
    element("reading-name").textContent = `Reading ${file.name}`;
    this.say(`Reading ${file.name} ..`);
    try {
      const job = this.jobOf(file);
      const isRead = await this.load(job, file.name);
      if (this.asked !== job) return; // another file, or another way to read it, was chosen meanwhile
      if (isRead) this.toggleSettings(false);
      else await this.goBack(file);
    } catch (fault) {
      const { message } = /** @type {Error} */ (fault);
      const isNamed = message !== NOT_ALL_CHOSEN && !isOfDictionary(message);
      this.refuse(isNamed ? new Error(`${file.name}: ${whyNot(message)}`) : new Error(message), this.job?.file !== file);
      if (this.job === null) this.state("asking");
    }
    this.setReading(false);
  }

  /**
   * What is chosen now: the file, how it is read, and the dictionary.
   * @param {string} name of the file
   */
  choice(name) {
    const { chosen, found, guessed, zero, incident } = this;
    const [incidents, dictionary, fields] = [this.incidents.all, this.dictionary.shown, fieldsOf()];
    return { name, whole: { chosen, found, guessed, zero, incident }, incidents, dictionary, fields };
  }

  /**
   * Goes back to what is shown, where reading was stopped; where nothing is, to what was asked.
   * @param {File} file that was not read
   */
  async goBack(file) {
    const { kept } = this;
    const shown = kept === null ? "" : ` ${kept.name} is shown as it was read before.`;
    this.say(`Stopped: ${file.name} was not read.${shown}`, false, true);
    this.asked = this.job;
    if (kept === null) {
      if (document.body.dataset.state === "empty") Object.assign(this, { chosen: [], zero: null });
      return;
    }
    const isOther = this.file !== this.job?.file;
    Object.assign(this, kept.whole);
    this.incidents.show(kept.incidents);
    if (this.incident) this.incidents.choose(this.incident);
    this.files.offer(this.chosen);
    this.files.offerChannels(this.found.channels);
    fill(kept.fields);
    if (isOther) await this.dictionary.take(kept.dictionary);
    this.state("result");
  }

  /** Reads again with an edited dictionary, where there is a file. */
  async readAgain() {
    if (this.file && !element("result").hidden) await this.read();
  }

  /**
   * @param {Asked|Embedded} job
   * @param {string} name
   * @returns {Promise<boolean>} whether it was read, and nothing else is meanwhile
   */
  async load(job, name) {
    const began = performance.now();
    this.asked = job;
    const summary = await this.desk.load(job);
    if (summary === null || this.asked !== job) return false;
    const isSame = this.job !== null && waysOf(this.job) === waysOf(job) && this.job.file === job.file;
    Object.assign(this, { job, clock: new Clock(job.rate, job.begin, summary.first) });
    if (!element("listing-data")) await this.dictionary.showDraft(summary.draft);
    element("result").hidden = false;
    this.state("result");
    element("draft").disabled = false;
    this.showWords(summary, job);
    this.replies.reset(summary.replies, job.rate, summary.verdict.isLateJudged);
    await this.navigation.reset(summary, this.clock, isSame);
    const lasted = ((performance.now() - began) / 1000).toFixed(1);
    this.say(`${name}: ${element("verdict-word").textContent}. ${grouped(summary.count)} lines in ${lasted} s.`);
    this.kept = this.choice(name);
    return true;
  }

  /**
   * All that is said of a file in words.
   * @param {Summary} summary
   * @param {Asked|Embedded} job
   */
  showWords(summary, job) {
    const { verdict, findings, warnings } = summary;
    const isReport = Boolean(element("listing-data"));
    fillList(element("notes"), [...summary.notes, ...(isReport ? this.about.notes ?? [] : [])]);
    this.verdict.show(summary);
    this.banners.show(summary, this.guessOf(job), this.clock);
    const bits = summary.past - summary.first;
    const lacks = [...verdict.lacks, ...verdict.notes];
    const drafted = summary.draft === null ? [] : [{ sort: "draft", shown: DRAFTED }];
    this.navigation.sentences.show(findings, verdict.well, [...drafted, ...lacks], this.clock, bits);
    this.heading.showLength(summary, this.clock);
    this.showTimeField();
    showTable(summary.table, findings);
    showDamage(summary.damage, summary.damaged);
    this.offerDictionary();
    if (isReport) this.heading.showReport(summary, /** @type {Embedded} */ (job), this.clock);
    else this.heading.showFile(summary, /** @type {Asked} */ (job), this.clock, this.incident);
    element("warnings-head").hidden = warnings.length === 0;
  }

  /** Names the field for a second, which is one for a time of day where that is known. */
  showTimeField() {
    const { rate, dayTime } = this.clock;
    element("query-second-name").textContent = dayTime === null ? "Second" : "Time";
    element("query-second").placeholder = dayTime === null ? "" : this.clock.at(this.clock.first, rate).slice(-12, -4);
  }

  /**
   * What is said of channels that were taken by their numbers.
   * @param {Asked|Embedded} job
   */
  guessOf(job) {
    const channels = "channels" in job ? job.channels.join(", ") : "";
    return channels !== "" && channels === this.guessed ? `The channels ${channels} were taken for ${WIRES}.` : "";
  }

  /** Where a draft is what judges, the way to it. */
  offerDictionary() {
    const button = make("button", "See it", "screen");
    button.type = "button";
    button.addEventListener("click", () => this.navigation.tabs.open("dictionary"));
    element("lacks").querySelector(".is-draft")?.append(" ", button);
  }

  /**
   * What a warning asks for: to take other edges, to invert a line, to choose other wires, or to show a second.
   * @param {import("./banners.js").Act} act
   * @param {Warning} [warning] which all have but a guess of the wires
   */
  async mend(act, warning) {
    if (act === "wires") this.toggleSettings(true);
    if (act === "second") await this.navigation.goTo(placeOf(/** @type {Warning} */ (warning), this.clock.rate) ?? 0);
    if (act === "wires" || act === "second") return;
    const tick = element(act === "edge" ? "falling" : `inverted-${/** @type {{ line: number }} */ (warning).line}`);
    tick.checked = !tick.checked;
    await this.read();
  }

  /** Shows the listing that a report has in it. */
  async showEmbedded() {
    if (!element("listing-data")) return;
    const { title, rate, dictionary, recording, notes = [], ...known } = /** @type {Report} */ (this.about);
    document.title = title;
    for (const id of ["choice", "actions", "dictionary-box"]) element(id).hidden = true;
    /** @type {NodeListOf<HTMLElement & { dataset: { report: string } }>} */
    const parts = document.querySelectorAll("[data-report]");
    for (const part of parts) part.textContent = part.dataset.report;
    element("dictionary-shown").hidden = dictionary === "";
    element("dictionary-text").textContent = dictionary;
    this.heading.showRecording(recording ?? {});
    const told = notes.filter((note) => note.startsWith(WARNING)).map((note) => note.slice(WARNING.length));
    const file = await unpacked("listing-data");
    const begin = known.begin === undefined ? null : { text: known.begin, late: 0 };
    await this.load({ file, form: "listing", rate, engine: null, dictionary, begin, told, end: known.bits }, title);
  }
}

/**
 * How a file is read, up to the dictionary: what is in view stays where that is the same.
 * @param {Asked|Embedded} job
 */
function waysOf(job) {
  const { form, rate, channels = [], kind, rising, inverted } = /** @type {Partial<Asked>} */ (job);
  return JSON.stringify({ form, rate, channels, kind, rising, inverted });
}

/** How a warning begins among the notes of a recording. */
const WARNING = "warning: ";

const script = URL.createObjectURL(new Blob([element("worker").textContent], { type: "text/javascript" }));
const desk = deskIn(() => new Worker(script), (progress) => page.hear(progress));
const page = new Page(desk);
/** @type {{ page1?: Page }} */ (self).page1 = page; // for tests and for the console
page.showEmbedded().catch((fault) => page.say(fault.message, true));
