/**
 * What SIGINT and SIGTERM do: the first one is the end of the input where a stream is read, and the command writes what
 * it has; a second one, or the first where no stream is read, ends it at once. Either way the command ends by the
 * signal itself, which is status 130 or 143 to a shell: a read that waits would hold up an exit.
 */

const SIGNALS = ["SIGINT", "SIGTERM"];
const HANGUP = "SIGHUP";

/** @type {string|null} */
let caught = null;

/**
 * Ends the stream that is read, if one is.
 * @type {(() => void)|null}
 */
let endStream = null;

/** The signal that has ended the input, if one has. */
export const endedBy = () => caught;

/**
 * Says that a stream is read, and how the first signal ends it.
 * @param {() => void} end
 */
export function onEndOfStream(end) {
  endStream = end;
}

/** Ends this process by the signal that was caught, having done what is to be done at its end. */
export function endBySignal(signal = caught ?? "SIGTERM") {
  process.emit("exit", 0);
  [...SIGNALS, HANGUP].forEach((each) => process.removeAllListeners(each));
  process.kill(process.pid, signal);
}

/** @param {string} signal */
function end(signal) {
  if (caught !== null || endStream === null) return endBySignal(signal);
  caught = signal;
  endStream();
}

/** Lets a hangup do what the signals do, unless it is to be passed over. */
export function catchHangup() {
  if (process.env.PORT1_NOHUP === undefined) process.on(HANGUP, () => end(HANGUP));
}

/** Lets signals do so. */
export function catchSignals() {
  if (process.env.PORT1_NOHUP !== undefined) process.on(HANGUP, () => undefined);
  for (const signal of SIGNALS) process.on(signal, () => end(signal));
}
