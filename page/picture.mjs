// The flash as a picture: a square for each page, some sectors in a row, in the colours of the legend.

import { KINDS, countsOf, pagesOf } from './pages.mjs';

const NAMES = {
    catalog: 'catalog',
    rows: 'rows',
    tree: 'trees',
    log: 'logs',
    building: 'under construction',
    waiting: 'to be collected',
    broken: 'unknown',
    free: 'free',
};
const STEPS = { ArrowLeft: () => -1, ArrowRight: () => 1, ArrowUp: columns => -columns, ArrowDown: columns => columns };

export class Picture {
    #canvas;
    #legend;
    #about;
    #pages = [];
    #chosen = 0;

    constructor(canvas, legend, about) {
        this.#canvas = canvas;
        this.#legend = legend;
        this.#about = about;
        canvas.addEventListener('pointermove', event => this.#choose(this.#pageUnder(event)));
        canvas.addEventListener('keydown', event => this.#step(event));
        canvas.addEventListener('focus', () => this.#draw());
        canvas.addEventListener('blur', () => this.#draw());
        new ResizeObserver(() => this.#draw()).observe(canvas.parentElement);
        matchMedia('(prefers-color-scheme: dark)').addEventListener('change', () => this.#draw());
    }

    show(image) {
        this.#pages = pagesOf(image);
        this.#chosen = 0;
        const counts = countsOf(this.#pages);
        const kinds = KINDS.filter(kind => counts[kind] || kind === 'free');
        this.#legend.replaceChildren(...kinds.map(kind => legendOf(kind, counts[kind])));
        const described = kinds.map(kind => `${counts[kind]} ${NAMES[kind]}`).join(', ');
        this.#canvas.setAttribute('aria-label', `${this.#pages.length} pages: ${described}`);
        this.#about.textContent = `${this.#pages.length / 16} sectors of 16 pages of 256 bytes. Point at a page, or use the arrow keys.`;
        this.#draw();
    }

    // The pages in a row, whole sectors: fewer if the flash is small, and on a small screen.
    get #columns() {
        const wide = this.#pages.length <= 1024 ? 64 : this.#pages.length <= 16384 ? 128 : 256;
        return this.#canvas.parentElement.clientWidth < 600 ? wide / 2 : wide;
    }

    #draw() {
        const style = getComputedStyle(this.#canvas);
        const colours = Object.fromEntries(KINDS.map(kind => [kind, style.getPropertyValue(`--${kind}`)]));
        const columns = this.#columns;
        const width = this.#canvas.clientWidth * devicePixelRatio;
        const side = Math.max(1, Math.floor(width / columns));
        const gap = side > 4 ? 1 : 0;
        this.#canvas.width = side * columns;
        this.#canvas.height = side * Math.ceil(this.#pages.length / columns);
        const context = this.#canvas.getContext('2d');
        this.#pages.forEach((page, at) => {
            context.fillStyle = colours[page.kind];
            context.fillRect(side * (at % columns), side * Math.floor(at / columns), side - gap, side - gap);
        });
        if (document.activeElement !== this.#canvas) return;
        context.strokeStyle = style.getPropertyValue('--ink');
        context.lineWidth = 2;
        context.strokeRect(side * (this.#chosen % columns), side * Math.floor(this.#chosen / columns), side, side);
    }

    #pageUnder(event) {
        const { left, top, width, height } = this.#canvas.getBoundingClientRect();
        const columns = this.#columns;
        const rows = Math.ceil(this.#pages.length / columns);
        const column = Math.floor((event.clientX - left) / width * columns);
        return Math.floor((event.clientY - top) / height * rows) * columns + column;
    }

    #step(event) {
        if (!(event.key in STEPS)) return;
        event.preventDefault();
        this.#choose(this.#chosen + STEPS[event.key](this.#columns));
        this.#draw();
    }

    #choose(page) {
        if (page < 0 || page >= this.#pages.length) return;
        this.#chosen = page;
        const { what, first } = this.#pages[page];
        const since = first === page ? '' : ` that begins at page ${first}`;
        this.#about.textContent = `Page ${page} in sector ${Math.floor(page / 16)}: ${what}${since}`;
    }
}

function legendOf(kind, count) {
    const item = document.createElement('li');
    item.className = kind;
    item.textContent = `${NAMES[kind]} ${count.toLocaleString('en')}`;
    return item;
}
