// What the library's `look` writes, and its replies to queries, as objects.

const RELATION = /^relation (\S+) \((.*)\) rows (\d+) removed (\d+) slots left (\d+)$/;
const INDEX = /^index (\S+)\.(\S+) (\S+)$/;

/** The relations in the lines of `look`, with their indexes. */
export function relationsOf(lines) {
    const relations = [];
    for (const line of lines.split('\n')) {
        const relation = RELATION.exec(line);
        if (relation) {
            const [, name, attributes, rows, removed, left] = relation;
            relations.push({ name, attributes: attributesOf(attributes), rows: +rows, removed: +removed, left: +left });
        }
        const index = INDEX.exec(line);
        if (index) {
            const of = relations.find(it => it.name === index[1]);
            of.attributes.find(it => it.name === index[2]).index = index[3];
        }
    }
    return relations;
}

function attributesOf(text) {
    if (!text) return [];
    return text.split(', ').map(it => {
        const [name, domain] = it.split(' ');
        return { name, domain, isNumber: !domain.startsWith('STRING') };
    });
}

/** The rows of a reply to a query. */
export function rowsOf(replies) {
    const lines = replies.split('\n');
    const end = lines.findIndex(it => it.startsWith('rows ') || it.startsWith('no '));
    return lines.slice(0, Math.max(end, 0)).map(valuesOf);
}

/** The values of a line: a text is in quotes and contains none, `-` is no value, and a sum may need a BigInt. */
export function valuesOf(line) {
    return [...line.matchAll(/'([^']*)'|[^,]+/g)].map(([token, text]) => {
        if (text !== undefined) return text;
        if (token === '-') return null;
        return Number.isSafeInteger(Number(token)) ? Number(token) : BigInt(token);
    });
}

/** The query for all rows of a relation. */
export function queryFor({ name, attributes }) {
    return `SELECT ${attributes.map(it => it.name).join(', ')} FROM ${name};`;
}

/** Whether a TIME looks like milliseconds since 1970: it is after March 1973. */
export function isClock(value, attribute) {
    return attribute.domain === 'TIME' && value >= 1e11;
}

/** How a value is written. */
export function shown(value, attribute) {
    if (value === null) return '–';
    if (!isClock(value, attribute)) return String(value);
    const end = [16, 19, 23][[60000, 1000, 1].findIndex(it => value % it === 0)];
    return new Date(value).toISOString().slice(0, end).replace('T', ' ');
}
