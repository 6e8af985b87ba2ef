/**
 * What else a file may be, by how it begins, and what to do then.
 * @type {[RegExp, string][]}
 */
const OTHERS = [
  [/^PK\x03\x04[^]*(meta\.json|digital-0\.bin)/, "a session of Saleae Logic: export its data there, as CSV."],
  [/^PK\x03\x04[^]*(header|L-0)/, "a session of DSView: export its data there, as CSV or VCD."],
  [/^PK\x03\x04/, "an archive (zip): unpack it, and drop the recording in it."],
  [/^<SALEAE>/, "what Saleae Logic exports as binary: export it as CSV."],
  [/^(\x1f\x8b|BZh|\xfd7zXZ|7z\xbc\xaf|Rar!|\x28\xb5\x2f\xfd)/, "an archive: unpack it, and drop what is in it."],
  [/^(\x89PNG|\xff\xd8\xff|GIF8)/, "a picture."],
  [/^%PDF/, "a document (PDF)."],
  [/^\xd0\xcf\x11\xe0/, "a workbook of a spreadsheet: save it as CSV."],
  [/^(\xd4\xc3\xb2\xa1|\xa1\xb2\xc3\xd4|\x0a\x0d\x0d\x0a)/, "a capture of Wireshark: it has no bits of the bus."],
  [/^(\xff\xfe|\xfe\xff)/, "text in UTF-16: save it as UTF-8."],
  [/^\s*[{[]/, "JSON."],
  [/^\s*</, "XML or HTML."],
];

/**
 * What a file is that is no recording, if that is known.
 * @param {string} head its first octets, as characters
 */
export const otherForm = (head) => OTHERS.find(([begins]) => begins.test(head))?.[1] ?? null;
