// Calls of the library in a worker: the page answers while one runs, and can stop it.

const decoder = new TextDecoder();

/** The call was stopped: its image was a copy, so nothing was changed. */
export class Stopped extends Error {}

export class Runner {
    #module;
    #worker;
    #refuse;
    #isRunning = false;

    constructor(module) {
        this.#module = module;
    }

    get isRunning() {
        return this.#isRunning;
    }

    /** The status of a call, its replies as bytes and as text, and the image after it. The given image stays as it is. */
    call(form, ...words) {
        this.#worker ??= new Worker('worker.mjs', { type: 'module' });
        this.#isRunning = true;
        return new Promise((accept, refuse) => {
            this.#refuse = refuse;
            this.#worker.onmessage = ({ data }) => (data.error ? refuse(new Error(data.error)) : accept(resultOf(data)));
            this.#worker.onerror = event => this.#end(new Error(event.message || 'the worker could not be started'));
            this.#worker.postMessage({ module: this.#module, form, words });
        }).finally(() => {
            this.#isRunning = false;
        });
    }

    /** Ends the call that runs; the next one gets a new worker. */
    stop() {
        this.#end(new Stopped('Stopped'));
    }

    #end(why) {
        this.#worker?.terminate();
        this.#worker = undefined;
        this.#refuse?.(why);
    }
}

function resultOf({ status, bytes, image }) {
    return { status, bytes, image, text: decoder.decode(bytes) };
}
