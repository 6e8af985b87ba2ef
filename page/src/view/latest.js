/**
 * A function that asks at once, and while an answer is awaited keeps only the last call that came.
 * @template {unknown[]} Words
 * @template Answer
 * @param {(...words: Words) => Promise<Answer>} ask
 * @param {(answer: Answer) => void} show
 * @returns {(...words: Words) => Promise<void>|undefined} of the first call, until there is no other
 */
export function latest(ask, show) {
  /** @type {Words|null} */
  let next = null;
  let isBusy = false;
  const run = async () => {
    isBusy = true;
    try {
      while (next) {
        const words = next;
        next = null;
        show(await ask(...words));
      }
    } finally {
      isBusy = false;
    }
  };
  return (...words) => {
    next = words;
    return isBusy ? undefined : run();
  };
}
