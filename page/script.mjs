// The text field for scripts: history by the arrow keys, and the commands at hand.

const STORED = 'history';
const MOST = 100;
const MOST_LENGTH = 10000;

export class Script {
    #field;
    #past;
    #at;
    #draft = '';

    /** The field, and the element whose buttons insert their text. */
    constructor(field, words) {
        this.#field = field;
        this.#past = stored();
        this.#at = this.#past.length;
        field.addEventListener('keydown', event => this.#step(event));
        words.addEventListener('click', event => {
            const button = event.target.closest('button');
            if (button) this.#insert(button.textContent);
        });
    }

    get text() {
        return this.#field.value;
    }

    /** Shows another script; the one that was there is in the history. */
    set text(script) {
        this.remember();
        this.#field.value = script;
    }

    /** Adds the script to the history; a long one would fill the storage. */
    remember() {
        const script = this.#field.value;
        if (!script.trim() || script.length > MOST_LENGTH) return;
        this.#past = [...this.#past.filter(it => it !== script), script].slice(-MOST);
        this.#at = this.#past.length;
        store(this.#past);
    }

    // Up in the first line shows the script before this one, and down in the last line the next one.
    #step(event) {
        const { value, selectionStart, selectionEnd } = this.#field;
        const [isUp, isDown] = ['ArrowUp', 'ArrowDown'].map(it => event.key === it && !event.shiftKey && !event.altKey);
        const to = this.#at + (isUp ? -1 : isDown ? 1 : 0);
        const isWithin = value.slice(...(isUp ? [0, selectionStart] : [selectionEnd])).includes('\n');
        if (to === this.#at || to < 0 || to > this.#past.length || isWithin) return;
        event.preventDefault();
        if (this.#at === this.#past.length) this.#draft = value;
        this.#at = to;
        this.#field.value = this.#past[to] ?? this.#draft;
        // up shows the line from which up goes on, and down the one from which down does
        const place = isUp ? 0 : this.#field.value.length;
        this.#field.setSelectionRange(place, place);
    }

    #insert(text) {
        const { selectionStart, selectionEnd } = this.#field;
        this.#field.setRangeText(text, selectionStart, selectionEnd, 'end');
        this.#field.focus();
    }
}

// A browser without storage forgets the history with the page.
function stored() {
    try {
        return JSON.parse(sessionStorage.getItem(STORED) ?? '[]');
    } catch {
        return [];
    }
}

function store(past) {
    try {
        sessionStorage.setItem(STORED, JSON.stringify(past));
    } catch {
        return;
    }
}
