// A validator for the keywords of JSON Schema, draft 7, that examples/dictionary.schema.json has.

/** @typedef {"array"|"boolean"|"integer"|"object"|"string"} TypeName */

/**
 * A schema, by its keywords.
 * @typedef {object} Schema
 * @property {string} [$schema]
 * @property {string} [$ref]
 * @property {string} [title]
 * @property {string} [description]
 * @property {unknown} [default]
 * @property {Schemas} [definitions]
 * @property {Schemas} [properties]
 * @property {Schema} [items]
 * @property {TypeName} [type]
 * @property {number[]} [enum]
 * @property {number} [minimum]
 * @property {number} [maximum]
 * @property {string} [pattern]
 * @property {number} [minItems]
 * @property {string[]} [required]
 * @property {false} [additionalProperties]
 */

/** @typedef {{ [name: string]: Schema }} Schemas */

/** @typedef {Required<Schema>} Asked what each keyword asks for */

/**
 * A fault by a schema: the keyword and what it asks for, the value that is against it, and where the value stands.
 * @template [A=unknown]
 * @typedef {object} SchemaFault
 * @property {keyof Schema} keyword
 * @property {A} asked
 * @property {unknown} value
 * @property {Schema} schema that the keyword is in
 * @property {(string|number)[]} path
 */

/**
 * Whether a value is against what a keyword asks for.
 * @template A
 * @typedef {(value: unknown, asked: A, schema: Schema) => boolean} Against
 */

/** @type {Record<TypeName, (value: unknown) => boolean>} */
const IS_OF_TYPE = {
  array: Array.isArray,
  boolean: (value) => typeof value === "boolean",
  integer: (value) => typeof value === "bigint",
  object: (value) => value instanceof Map,
  string: (value) => typeof value === "string",
};

/** @param {unknown} value @returns {value is bigint|number} */
const isNumber = (value) => typeof value === "bigint" || typeof value === "number";

/**
 * Whether a value is a number of a schema: 1.0 is 1.
 * @param {unknown} value
 * @param {number} asked
 */
const isSame = (value, asked) => isNumber(value) && Number(value) === asked;

/**
 * For each keyword that judges a value by itself, whether the value is against it.
 * @type {{ [Keyword in keyof Schema]?: Against<Asked[Keyword]> }}
 */
const FAULTS = {
  type: (value, asked) => !IS_OF_TYPE[asked](value),
  enum: (value, asked) => !asked.some((one) => isSame(value, one)),
  minimum: (value, asked) => isNumber(value) && value < asked,
  maximum: (value, asked) => isNumber(value) && value > asked,
  pattern: (value, asked) => typeof value === "string" && !new RegExp(asked, "u").test(value),
  minItems: (value, asked) => Array.isArray(value) && value.length < asked,
  required: (value, asked) => value instanceof Map && asked.some((key) => !value.has(key)),
  additionalProperties: (value, _, schema) =>
    value instanceof Map &&
    [...value.keys()].some((key) => !Object.hasOwn(/** @type {Schemas} */ (schema.properties), key)),
};

/** @param {unknown} asked @returns {asked is string} */
const isText = (asked) => typeof asked === "string";

/** @param {unknown} asked */
const isWhole = (asked) => Number.isSafeInteger(asked);

/** @param {(item: unknown) => boolean} is @returns {(asked: unknown) => boolean} */
const isListOf = (is) => (asked) => Array.isArray(asked) && asked.every(is);

/** @param {unknown} asked */
const isTable = (asked) => typeof asked === "object" && asked !== null && !Array.isArray(asked);

/**
 * For each keyword that is known, whether what a schema asks by it is known too.
 * @type {Record<string, (asked: unknown, schema: Schema) => boolean>}
 */
const KNOWN = {
  $schema: (asked) => asked === "http://json-schema.org/draft-07/schema#",
  $ref: (asked) => isText(asked) && asked.startsWith("#/definitions/"),
  title: isText,
  description: isText,
  default: () => true,
  definitions: isTable,
  properties: isTable,
  items: isTable,
  type: (asked) => isText(asked) && Object.hasOwn(IS_OF_TYPE, asked),
  enum: isListOf(isWhole),
  minimum: isWhole,
  maximum: isWhole,
  pattern: isText,
  minItems: isWhole,
  required: isListOf(isText),
  additionalProperties: (asked, schema) => asked === false && isTable(schema.properties),
};

/**
 * The schemas within a schema.
 * @param {Schema} schema
 * @returns {Schema[]}
 */
function within(schema) {
  const tables = [schema.definitions, schema.properties].flatMap((table) => Object.values(table ?? {}));
  return schema.items === undefined ? tables : [...tables, schema.items];
}

/**
 * Refuses a schema with a keyword, or a use of one, that the validator does not know.
 * @param {Schema} schema
 * @param {Schema} root
 */
function checkSchema(schema, root) {
  for (const [keyword, asked] of Object.entries(schema)) {
    if (!Object.hasOwn(KNOWN, keyword) || !KNOWN[keyword](asked, schema)) {
      throw new Error(`the schema has what its reader does not know: ${keyword}: ${JSON.stringify(asked)}`);
    }
  }
  if (schema.$ref !== undefined && definitionOf(schema.$ref, root) === undefined) {
    throw new Error(`the schema does not define ${schema.$ref}`);
  }
  within(schema).forEach((inner) => checkSchema(inner, root));
}

/** @param {string} reference @param {Schema} root */
const definitionOf = (reference, root) => root.definitions?.[reference.slice("#/definitions/".length)];

/**
 * @param {unknown} value
 * @param {keyof Schema} keyword
 * @param {unknown} asked
 * @param {Schema} root
 * @param {SchemaFault["path"]} path
 * @returns {Iterable<SchemaFault>}
 */
function* faultsOfParts(value, keyword, asked, root, path) {
  if (keyword === "items" && Array.isArray(value)) {
    for (const [at, item] of value.entries()) {
      yield* faults(item, /** @type {Schema} */ (asked), root, [...path, at]);
    }
  } else if (keyword === "properties" && value instanceof Map) {
    for (const [key, inner] of Object.entries(/** @type {Schemas} */ (asked))) {
      if (value.has(key)) yield* faults(value.get(key), inner, root, [...path, key]);
    }
  }
}

/**
 * @param {unknown} value
 * @param {Schema} schema
 * @param {Schema} root
 * @param {SchemaFault["path"]} path
 * @returns {Iterable<SchemaFault>}
 */
function* faults(value, schema, root, path) {
  if (schema.$ref !== undefined) {
    yield* faults(value, /** @type {Schema} */ (definitionOf(schema.$ref, root)), root, path);
    return;
  }
  for (const [keyword, asked] of /** @type {[keyof Schema, unknown][]} */ (Object.entries(schema))) {
    const isAgainst = /** @type {Against<unknown>|undefined} */ (FAULTS[keyword]);
    if (isAgainst?.(value, asked, schema)) yield { keyword, asked, value, schema, path };
    yield* faultsOfParts(value, keyword, asked, root, path);
  }
}

/**
 * What is wrong with a TOML table by a schema, in the order of the schema. In TOML, other than in JSON, 16.0 is no
 * whole number.
 * @param {Map<string, unknown>} table
 * @param {Schema} schema
 * @returns {SchemaFault[]}
 */
export function faultsBySchema(table, schema) {
  checkSchema(schema, schema);
  return [...faults(table, schema, schema, [])];
}
