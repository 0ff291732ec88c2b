// The library in a worker. It gets one call at a time, and answers with its result or with an error's text.

import { Library } from './library.mjs';

let library;

onmessage = ({ data: { module, form, words } }) => {
    try {
        library ??= new Library(module);
        const { status, bytes, image } = library[form](...words);
        postMessage({ status, bytes, image }, [bytes.buffer, image.buffer]);
    } catch (error) {
        postMessage({ error: error.message });
    }
};
