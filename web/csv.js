// CSV: records of fields, which are parted by commas and stand in quotes where they have to.

// The records of a text, without its empty lines. A quote that is never ended goes to the end of the text.
export function readCsv(text) {
  const form = /(?:"([^"]*(?:""[^"]*)*)"?)?([^,\r\n]*)(,|\r\n?|\n|$)/y;
  const records = [];
  let fields = [];
  while (form.lastIndex < text.length || fields.length) {
    const [whole, quoted, rest, end] = form.exec(text);
    fields.push((quoted ?? "").replaceAll('""', '"') + rest);
    if (end === ",") continue;
    if (fields.length > 1 || whole !== end) records.push(fields);
    fields = [];
  }
  return records;
}

const quoted = field => /[",\r\n]/.test(field) ? `"${field.replaceAll('"', '""')}"` : field;

export const writeCsv = records => records.map(fields => fields.map(quoted).join(",") + "\n").join("");
