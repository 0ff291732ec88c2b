// Files that come and go: their kind by size and name, before they are read; a long script in parts; rows as CSV.

const SECTOR = 4096;
const LEAST_SECTORS = 4;
const MOST_SECTORS = 4095;
const MOST_SCRIPT = 16777216;
const LINE_END = 10;

/** The longest script that is shown in the text field; a longer one is run from its file. */
export const MOST_SHOWN = 1 << 20;

/** Whether a file is an `image`, a `script`, or neither; then `why` says so. */
export function kindOf({ name, size }) {
    const bytes = `${size.toLocaleString('en')} bytes`;
    if (/\.(aql|txt|sql)$/i.test(name)) {
        return size <= MOST_SCRIPT ? { kind: 'script' }
            : { why: `${name} has ${bytes}, and a run takes a script of at most ${MOST_SCRIPT.toLocaleString('en')}.` };
    }
    if (size % SECTOR === 0 && size >= LEAST_SECTORS * SECTOR && size <= MOST_SECTORS * SECTOR) return { kind: 'image' };
    const wanted = 'An image has 4 to 4,095 sectors of 4,096 bytes; the name of a script ends in .aql.';
    return { why: `${name} has ${bytes}. ${wanted}` };
}

/** A longer image: erased sectors are zeros at its end. */
export function lengthened(image, sectors) {
    const longer = new Uint8Array(Math.min(image.length + sectors * SECTOR, MOST_SECTORS * SECTOR));
    longer.set(image);
    return longer;
}

/** The parts of a script that one run each can take, cut after whole commands: each line of a dump is one. */
export function partsOf(script) {
    const parts = [];
    let from = 0;
    do {
        let to = Math.min(from + MOST_SCRIPT, script.length);
        if (to < script.length) to = script.lastIndexOf(LINE_END, to - 1) + 1;
        parts.push(script.subarray(from, to));
        from = to;
    } while (from < script.length);
    return parts;
}

/** Rows as CSV, with a line of names: RFC 4180, numbers as AQL writes them, and nothing where there is no value. */
export function csvOf(columns, rows) {
    const cell = value => {
        if (value === null) return '';
        return typeof value === 'string' ? `"${value.replaceAll('"', '""')}"` : String(value);
    };
    const lines = [columns.map(it => cell(it.name)), ...rows.map(row => row.map(cell))];
    return lines.map(it => `${it.join(',')}\r\n`).join('');
}
