// Keeps the image of this tab in the browser's storage, so that a reload or a crash loses nothing that was answered.
//
// Each open tab has a place of its own, held by a lock; the next tab takes the first place that no tab holds.

const STORE = 'images';
const PLACE = 'place';
// A reload may ask for its place before the browser has released it.
const PATIENCE = 2000;

export class Keep {
    #database;
    #place;

    /** Opens the storage; an error says what this browser lacks. */
    static async open() {
        if (!navigator.locks || !window.indexedDB) throw new Error('it has no storage for this address');
        const keep = new Keep();
        keep.#place = await takePlace();
        const opening = indexedDB.open('sorachest', 1);
        opening.onupgradeneeded = () => opening.result.createObjectStore(STORE);
        keep.#database = await resultOf(opening);
        return keep;
    }

    /** What this place has: an image with its name, and whether it was saved; undefined if there is nothing. */
    read() {
        return resultOf(this.#database.transaction(STORE).objectStore(STORE).get(this.#place));
    }

    /** Returns when the record is in the storage. */
    write(record) {
        const writing = this.#database.transaction(STORE, 'readwrite', { durability: 'strict' });
        writing.objectStore(STORE).put(record, this.#place);
        return new Promise((accept, refuse) => {
            writing.oncomplete = () => accept();
            writing.onabort = () => refuse(writing.error);
        });
    }
}

// A reload finds its own place again.
async function takePlace() {
    const last = sessionStorage.getItem(PLACE);
    if (last && await isTaken(last, { signal: AbortSignal.timeout(PATIENCE) })) return last;
    let place = 1;
    while (!await isTaken(String(place), { ifAvailable: true })) place++;
    sessionStorage.setItem(PLACE, place);
    return String(place);
}

// Whether this tab now has the lock of a place, which it then holds until it is closed.
function isTaken(place, how) {
    return new Promise(answer => {
        const held = lock => {
            answer(lock !== null);
            return lock && new Promise(() => {});
        };
        navigator.locks.request(`sorachest-${place}`, how, held).catch(() => answer(false));
    });
}

function resultOf(request) {
    return new Promise((accept, refuse) => {
        request.onsuccess = () => accept(request.result);
        request.onerror = () => refuse(request.error);
    });
}
