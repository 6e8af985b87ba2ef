/**
 * A kind of commands, or of frames.
 * @typedef {{station: number, type: number}} Kind
 */

/**
 * A map from kinds of commands or frames.
 * @template V
 */
export class Kinds {
  constructor() {
    /** @type {Map<number, Map<number, V>>} */
    this.stations = new Map();
  }

  /**
   * The value of a kind, which is made where there is none yet.
   * @param {number|null} station
   * @param {number|null} type
   * @param {() => V} make
   * @returns {V}
   */
  at(station, type, make) {
    let types = this.stations.get(station ?? 0);
    if (types === undefined) {
      types = new Map();
      this.stations.set(station ?? 0, types);
    }
    let found = types.get(type ?? 0);
    if (found === undefined) {
      found = make();
      types.set(type ?? 0, found);
    }
    return found;
  }

  /** @param {(value: V) => void} say */
  each(say) {
    for (const types of this.stations.values()) types.forEach(say);
  }

  /**
   * The kinds with their values, by station and then by type.
   * @returns {[Kind, V][]}
   */
  sorted() {
    /** @type {[Kind, V][]} */
    const found = [];
    for (const [station, types] of this.stations) {
      for (const [type, value] of types) {
        found.push([{ station, type }, value]);
      }
    }
    return found.sort(([one], [other]) => one.station - other.station || one.type - other.type);
  }
}

const newCount = () => ({ count: 0 });

/** Counts by kinds. */
export class Counts {
  constructor() {
    /** @type {Kinds<{count: number}>} */
    this.kinds = new Kinds();
    this.total = 0;
  }

  /**
   * @param {number|null} station
   * @param {number|null} type
   */
  add(station, type) {
    this.kinds.at(station, type, newCount).count += 1;
    this.total += 1;
  }

  /** @param {Counts} others */
  addAll(others) {
    for (const [{ station, type }, { count }] of others.kinds.sorted()) {
      this.kinds.at(station, type, newCount).count += count;
    }
    this.total += others.total;
  }

  /**
   * How many there are of a kind.
   * @param {{ station: number, type: number|null }} kind
   */
  of({ station, type }) {
    return this.kinds.stations.get(station)?.get(type ?? 0)?.count ?? 0;
  }

  /**
   * The kinds with the greatest counts.
   * @param {number} most how many
   * @returns {[Kind, number][]}
   */
  first(most) {
    /** @type {[Kind, number][]} */
    const found = this.kinds.sorted().map(([kind, { count }]) => [kind, count]);
    return found.sort((one, other) => other[1] - one[1]).slice(0, most);
  }
}
