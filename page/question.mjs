// A question over the page, which waits for an answer.

import { made } from './sheet.mjs';

/** The value of the choice that is pressed; '' if the question is closed by Escape. */
export function chosenIn(dialog, text, choices) {
    const asked = made('p', text);
    asked.id = 'asked';
    const form = document.createElement('form');
    form.method = 'dialog';
    form.append(...Object.entries(choices).map(([value, label]) => {
        const button = made('button', label);
        button.value = value;
        return button;
    }));
    dialog.replaceChildren(asked, form);
    dialog.returnValue = '';
    dialog.showModal();
    return new Promise(answer => {
        dialog.addEventListener('close', () => answer(dialog.returnValue), { once: true });
    });
}
