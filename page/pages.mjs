// What each page of an image belongs to, read from the headers of docs/FORMATS.md. Images that are not sound are shown as
// far as they can be read.

const PAGE = 256;
const OBSOLETE = 4;
const LOG = 16;
const ISOLATED = 2 | 32;
const FLAGS = [2, 3, 7, 11, 15, 19, 23];

/** The kinds of pages, in the order of the legend. */
export const KINDS = ['catalog', 'rows', 'tree', 'log', 'building', 'waiting', 'broken', 'free'];

/** The kind of each page, and what it belongs to. */
export function pagesOf(image) {
    const count = Math.floor(image.length / PAGE);
    const pages = [];
    while (pages.length < count) {
        const first = pages.length;
        const { size, kind, what } = unitAt(image, first, count - first);
        for (let i = 0; i < size; i++) pages.push({ kind, what, first, size });
    }
    return pages;
}

/** The number of pages of each kind. */
export function countsOf(pages) {
    const counts = Object.fromEntries(KINDS.map(kind => [kind, 0]));
    for (const { kind } of pages) counts[kind]++;
    return counts;
}

// The unit that begins at a page; `left` pages are left from there on.
function unitAt(image, page, left) {
    const header = image.subarray(page * PAGE, page * PAGE + 32);
    const one = (kind, what) => ({ size: 1, kind, what });
    if (header.every(byte => byte === 0)) return one('free', 'free');
    if ((header[9] & ISOLATED) === ISOLATED) return one('waiting', 'to be collected');
    const size = header[6] + 256 * header[7];
    if (!isHeader(header) || size === 0 || size > left) return one('broken', 'no header of these formats');
    const name = nameOf(header);
    const pages = `${size} page${size === 1 ? '' : 's'}`;
    const flags = header[9];
    if (flags & OBSOLETE) return { size, kind: 'waiting', what: `${name}, obsolete, ${pages}` };
    if (flags & LOG) return { size, kind: 'log', what: `log of ${name}, ${pages}` };
    if (flags === 2) return { size, kind: 'building', what: `${name}, under construction, ${pages}` };
    return { size, kind: kindOf(name), what: `${name}, ${pages}` };
}

function isHeader(header) {
    const name = nameOf(header);
    return header[8] <= 1 && FLAGS.includes(header[9]) && /^[!-~]{1,15}$/.test(name)
        && header.subarray(10 + name.length).every(byte => byte === 0);
}

function nameOf(header) {
    const end = header.indexOf(0, 10);
    return String.fromCharCode(...header.subarray(10, end < 0 ? 26 : Math.min(end, 26)));
}

function kindOf(name) {
    if (name === 'CAT') return 'catalog';
    return name.startsWith('X') ? 'tree' : 'rows';
}
