/** Files as they were given: chosen, dropped, or in a folder that was. */

/** @typedef {{ file: File, path: string }} Given a file, and where it is in what was given */

/** @param {Iterable<File>} files @returns {Given[]} */
export const chosenFiles = (files) => [...files].map((file) => ({ file, path: file.webkitRelativePath || file.name }));

/**
 * All files of an entry that was dropped.
 * @param {FileSystemEntry} entry
 * @returns {Promise<Given[]>}
 */
async function filesOf(entry) {
  if (entry.isFile) {
    const file = await new Promise((done, fail) => /** @type {FileSystemFileEntry} */ (entry).file(done, fail));
    return [{ file, path: entry.fullPath.slice(1) }];
  }
  const reader = /** @type {FileSystemDirectoryEntry} */ (entry).createReader();
  const found = /** @type {Given[]} */ ([]);
  for (;;) {
    /** @type {FileSystemEntry[]} */
    const entries = await new Promise((done, fail) => reader.readEntries(done, fail));
    if (entries.length === 0) return found;
    for (const own of entries) found.push(...(await filesOf(own)));
  }
}

/**
 * What was dropped, with the files of folders. What is dropped is known only while it is.
 * @param {DataTransfer} dropped
 * @returns {Promise<Given[]>}
 */
export async function droppedFiles({ files, items }) {
  const flat = chosenFiles(files);
  const entries = [...items].flatMap((item) => item.webkitGetAsEntry?.() ?? []);
  if (!entries.some(({ isDirectory }) => isDirectory)) return flat;
  return (await Promise.all(entries.map(filesOf))).flat();
}
