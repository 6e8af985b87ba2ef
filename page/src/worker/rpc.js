/** Calls between page and worker, from either side: each is a message with a number, and so is its answer. */

/** @typedef {(...words: never[]) => unknown} Answerer whatever it takes */
/** @typedef {{ number: number, name: string, words: Parameters<Answerer> }} Call */
/** @typedef {{ number: number, name?: undefined, result?: unknown, fault?: string }} Answer */

/**
 * @typedef {object} Port to the other side
 * @property {((event: MessageEvent<Call|Answer>) => void)|null} onmessage
 * @property {(message: Call|Answer, transfer: Transferable[]) => void} postMessage
 */

/**
 * An object with a function for each name, which asks the other side, whose calls some functions answer.
 * @template Far
 * @param {Port} port
 * @param {Record<string, Answerer>} functions
 * @returns {Far}
 */
export function linked(port, functions) {
  /** @type {Map<number, { resolve: (result: unknown) => void, reject: (fault: Error) => void }>} */
  const waiting = new Map();
  let last = 0;
  /** @param {Call} call */
  const answer = async ({ number, name, words }) => {
    try {
      const result = await functions[name](...words);
      port.postMessage({ number, result }, result instanceof ArrayBuffer ? [result] : []);
    } catch (fault) {
      port.postMessage({ number, fault: String(/** @type {Error|null|undefined} */ (fault)?.message ?? fault) }, []);
    }
  };
  /** @param {Answer} answered */
  const settle = ({ number, result, fault }) => {
    const call = waiting.get(number);
    waiting.delete(number);
    if (fault === undefined) call?.resolve(result);
    else call?.reject(new Error(fault));
  };
  port.onmessage = ({ data }) => (data.name === undefined ? settle(data) : void answer(data));
  /** @param {string} name */
  const asks = (name) => (/** @type {Parameters<Answerer>} */ ...words) =>
    new Promise((resolve, reject) => {
      last += 1;
      waiting.set(last, { resolve, reject });
      port.postMessage({ number: last, name, words }, []);
    });
  return /** @type {Far} */ (new Proxy({}, { get: (_, name) => asks(String(name)) }));
}
