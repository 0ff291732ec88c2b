// The proved library as a WebAssembly module: each call gets an image, an input and room for replies, and keeps nothing.
//
// The module has no imports, so it can reach nothing but its own memory.

const ROOM = 16 << 20;
// The longest dump: 262,144 rows on 16,773,120 bytes of flash take less than 40 MB of text.
const DUMP_ROOM = 64 << 20;
const PLACE = 16n;
const encoder = new TextEncoder();

/** What each status means here. */
export const STATUSES = {
    0: 'done',
    3: 'the flash is full (more sectors make room); the last command changed nothing, and none after it was run',
    5: 'the replies are longer than 16 MiB; the command whose reply is cut off was run, and none after it',
    6: 'the image is not sound, and was not changed',
    8: 'the script is longer than 16,777,216 bytes; the commands that are complete within them were run',
    10: 'an image has 4 to 4,095 sectors of 4,096 bytes',
};

/** The library of a module's bytes. */
export async function load(bytes) {
    return new Library(await WebAssembly.compile(bytes));
}

export class Library {
    #module;

    constructor(module) {
        this.#module = module;
    }

    run(image, script) {
        return this.#call('sorachest_run', image, { input: bytesOf(script) });
    }

    serve(image, line) {
        return this.#call('sorachest_serve', image, { input: line });
    }

    dump(image) {
        return this.#call('sorachest_dump', image, { room: DUMP_ROOM });
    }

    plan(image, rows) {
        return this.#call('sorachest_plan', image, { rows });
    }

    look(image) {
        return this.#call('sorachest_look', image);
    }

    check(image) {
        return this.#call('sorachest_check', image);
    }

    repair(image) {
        return this.#call('sorachest_repair', image);
    }

    collect(image) {
        return this.#call('sorachest_collect', image);
    }

    // Each call has an instance of its own, so that its memory is freed after it.
    #call(name, image, { input, rows, room: roomLength = ROOM } = {}) {
        const { exports } = new WebAssembly.Instance(this.#module, {});
        const lender = new Lender(exports);
        const ended = lender.lend(16);
        const words = [ended, ...lender.slice(image)];
        if (input) words.push(...lender.slice(input));
        if (rows !== undefined) words.push(rows);
        const room = lender.lend(roomLength);
        exports[name](...words, room, BigInt(roomLength));
        const memory = exports.memory.buffer;
        const view = new DataView(memory, Number(ended), 16);
        const from = Number(words[1]);
        return new Ended(
            view.getUint8(0),
            new Uint8Array(memory.slice(Number(room), Number(room + view.getBigUint64(8, true)))),
            new Uint8Array(memory.slice(from, from + image.length)),
        );
    }
}

/** The result of a call: its status, the bytes that it wrote, and the image after it. */
class Ended {
    constructor(status, bytes, image) {
        Object.assign(this, { status, bytes, image });
    }
}

// The memory after the module's own data, which is handed out from its start.
class Lender {
    #memory;
    #free;

    constructor({ memory, __heap_base }) {
        this.#memory = memory;
        this.#free = __heap_base ? BigInt(__heap_base.value) : BigInt(memory.buffer.byteLength);
    }

    /** The place of free memory of this length. */
    lend(bytes) {
        const place = (this.#free + PLACE - 1n) / PLACE * PLACE;
        this.#free = place + BigInt(bytes);
        const missing = this.#free - BigInt(this.#memory.buffer.byteLength);
        if (missing > 0n) grow(this.#memory, (missing + 65535n) / 65536n);
        return place;
    }

    /** The place and the length of a copy of these bytes: a slice, as the library takes it. */
    slice(bytes) {
        const place = this.lend(bytes.length);
        new Uint8Array(this.#memory.buffer).set(bytes, Number(place));
        return [place, BigInt(bytes.length)];
    }
}

// A memory with 64-bit addresses takes a BigInt, but not yet in every engine.
function grow(memory, pages) {
    try {
        memory.grow(pages);
    } catch (error) {
        if (!(error instanceof TypeError)) throw error;
        memory.grow(Number(pages));
    }
}

function bytesOf(script) {
    return typeof script === 'string' ? encoder.encode(script) : script;
}
