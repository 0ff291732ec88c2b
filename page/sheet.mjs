// Rows as a table, as CSV and as a plot: of the chosen relation, and of an answer.

import { csvOf } from './files.mjs';
import { plot } from './plot.mjs';
import { shown } from './relations.mjs';

const SHOWN_ROWS = 500;
// The axis that counts the rows.
const NUMBER = { name: 'row number', domain: '' };

/** An element with a text and a class. */
export function made(tag, text, className = '') {
    const element = document.createElement(tag);
    element.textContent = text;
    element.className = className;
    return element;
}

/** Lets a link save this content under a name. */
export function offer(link, content, as) {
    if (link.href.startsWith('blob:')) URL.revokeObjectURL(link.href);
    link.href = URL.createObjectURL(new Blob([content]));
    link.download = as;
}

export class Sheet {
    #about;
    #rows;
    #csv;
    #plot;
    #axes;
    #shown = { columns: [], rows: [], name: '' };

    /** Fills an element with the template's parts. */
    constructor(place, template) {
        place.append(template.content.cloneNode(true));
        const part = name => place.querySelector(`.${name}`);
        this.#about = part('about');
        this.#rows = part('rows');
        this.#csv = part('csv');
        this.#plot = part('plot');
        this.#axes = { x: part('x'), y: part('y') };
        for (const select of Object.values(this.#axes)) select.addEventListener('change', () => this.#draw());
        // a long CSV is made only when it is wanted, before the link is followed
        this.#csv.addEventListener('click', () => {
            const { columns, rows, name } = this.#shown;
            offer(this.#csv, csvOf(columns, rows), `${name}.csv`);
        });
        new ResizeObserver(() => this.#draw()).observe(this.#plot);
    }

    /** Shows rows of these columns, each with a `name` and a `domain`; `note` is shown beside them. */
    show(columns, rows, name, note = '') {
        const hasAxes = namesOf(columns) === namesOf(this.#shown.columns);
        this.#shown = { columns, rows, name };
        const all = rows.length.toLocaleString('en');
        const part = rows.length > SHOWN_ROWS ? `The first ${SHOWN_ROWS} of ${all} rows. ` : '';
        this.#about.textContent = part + note;
        this.#rows.replaceChildren(...(columns.length ? [tableOf(columns, rows)] : []));
        this.#csv.hidden = columns.length === 0;
        this.#showAxes(hasAxes);
    }

    // The axes that were chosen stay, if the columns are the same.
    #showAxes(hasAxes) {
        const numbers = this.#shown.columns.filter((_, at) => isNumber(this.#shown, at));
        const first = { x: numbers.length > 1 ? numbers[0] : NUMBER, y: numbers[1] ?? numbers[0] };
        for (const [axis, select] of Object.entries(this.#axes)) {
            const names = [...numbers, ...(axis === 'x' ? [NUMBER] : [])].map(it => it.name);
            const was = select.value;
            select.replaceChildren(...names.map(it => new Option(it)));
            select.value = hasAxes && names.includes(was) ? was : first[axis]?.name;
        }
        this.#draw();
    }

    #draw() {
        const { columns, rows } = this.#shown;
        const [x, y] = ['x', 'y'].map(axis => columns.findIndex(it => it.name === this.#axes[axis].value));
        if (y < 0 || rows.length < 2) {
            this.#plot.replaceChildren(made('p', 'Two or more rows with numbers are plotted here.', 'hint'));
            return;
        }
        if (!this.#plot.clientWidth) return;
        const pairs = rows.map((row, at) => [x < 0 ? at + 1 : row[x], row[y]])
            .filter(pair => pair.every(it => it !== null)).map(pair => pair.map(Number));
        this.#plot.replaceChildren(plot(pairs, columns[x] ?? NUMBER, columns[y], this.#plot.clientWidth));
    }
}

function namesOf(columns) {
    return columns.map(it => it.name).join();
}

// Whether a column has numbers: by its domain, or by its first value.
function isNumber({ columns, rows }, at) {
    return columns[at].isNumber ?? (rows.length > 0 && typeof rows[0][at] !== 'string');
}

function tableOf(columns, rows) {
    const table = document.createElement('table');
    const head = table.createTHead().insertRow();
    const classes = columns.map((it, at) => (isNumber({ columns, rows }, at) && it.domain !== 'TIME' ? 'number' : ''));
    columns.forEach(({ name, domain, index }, at) => {
        const cell = made('th', name, classes[at]);
        cell.scope = 'col';
        cell.append(made('small', index ? `${domain}, ${index}` : domain));
        head.append(cell);
    });
    const body = table.createTBody();
    for (const row of rows.slice(0, SHOWN_ROWS)) {
        const line = body.insertRow();
        row.forEach((value, at) => line.append(made('td', shown(value, columns[at]), classes[at])));
    }
    return table;
}
