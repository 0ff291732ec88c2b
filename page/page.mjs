// The page: an image in memory, and what is shown of it. The image changes only when a call has ended and it is kept.

import { MOST_SHOWN, kindOf, lengthened, partsOf } from './files.mjs';
import { Keep } from './keep.mjs';
import { STATUSES } from './library.mjs';
import { Picture } from './picture.mjs';
import { chosenIn } from './question.mjs';
import { queryFor, relationsOf, rowsOf, valuesOf } from './relations.mjs';
import { answersOf, isRefusal } from './replies.mjs';
import { Runner, Stopped } from './runner.mjs';
import { Script } from './script.mjs';
import { Sheet, made, offer } from './sheet.mjs';

const SECTOR = 4096;
const NEW_SECTORS = 256;
const MORE_SECTORS = 256;
const SAMPLE_SECTORS = 32;
const SHOWN_LINES = 2000;
const SAMPLE_SCRIPT = `SELECT MIN(celsius), MAX(celsius), MEAN(celsius)
FROM readings WHERE humidity > 60;
SELECT at, humidity, celsius FROM readings WHERE sky = 'clear';
`;

const by = id => document.getElementById(id);
const picture = new Picture(by('pages'), by('legend'), by('page'));
const script = new Script(by('script'), by('words'));
const relationSheet = new Sheet(by('relation-sheet'), by('sheet'));
const answerSheet = new Sheet(by('answer-sheet'), by('sheet'));

let runner;
let keep;
let image = new Uint8Array(NEW_SECTORS * SECTOR);
let name = 'station';
let isSaved = true;
let isSound = true;
let isBusy = false;
let relations = [];
let chosen;
let answers = [];
// What `repair` makes of an image that is not sound, until it is accepted.
let repaired;

// ---- one thing at a time

/** Does something that takes time; meanwhile only Stop works. */
async function doing(action) {
    if (isBusy) return say('Wait until this has ended, or stop it.');
    say('');
    const before = image;
    const begun = performance.now();
    setBusy(true);
    const ticking = setInterval(() => {
        const seconds = Math.round((performance.now() - begun) / 1000);
        if (runner.isRunning) by('running').textContent = `Running for ${seconds} s`;
    }, 1000);
    try {
        await action();
    } catch (error) {
        const left = `The image is ${image === before ? 'as it was before' : 'changed, and not all of it is shown'}.`;
        by('ended').textContent = error instanceof Stopped ? `Stopped. ${left}` : `Failed: ${error.message}. ${left}`;
    } finally {
        clearInterval(ticking);
        by('running').textContent = '';
        setBusy(false);
    }
}

function setBusy(is) {
    isBusy = is;
    by('stop').disabled = !is;
    document.documentElement.dataset.busy = is ? 'yes' : 'no';
}

/** Shows the result of a button or a file, until the next one. */
function say(text, items = []) {
    by('message').hidden = text === '';
    by('said').textContent = text;
    by('items').replaceChildren(...items);
}

/** Whether the image may be replaced: it is saved, or the person says so. */
async function mayGo() {
    if (isSaved) return true;
    const choices = { save: 'Save it and continue', go: 'Continue without saving', '': 'Cancel' };
    const choice = await chosenIn(by('question'), `${name} has changes that are not saved.`, choices);
    if (choice === 'save') linkTo(image, `${name}.img`).click();
    return choice !== '';
}

function linkTo(content, as) {
    const link = made('a', as);
    offer(link, content, as);
    return link;
}

// ---- the image

/** Makes this the image of the page, once the browser has it in its storage. */
async function accept(bytes, as, areSaved) {
    try {
        await keep?.write({ image: bytes, name: as, isSaved: areSaved });
    } catch (error) {
        keep = undefined;
        by('kept').textContent = notKept(error);
    }
    [image, name, isSaved] = [bytes, as, areSaved];
}

function notKept(error) {
    return `This browser cannot keep the image over a reload: ${error.message}. Save it before you leave the page.`;
}

/** Replaces the image. */
async function take(bytes, as, areSaved = true) {
    await accept(bytes, as, areSaved);
    by('replies').textContent = '';
    by('ended').textContent = '';
    showAnswers('', []);
    await show();
}

async function show() {
    by('notice').hidden = true;
    picture.show(image);
    showName();
    offer(by('save'), image, `${name}.img`);
    const { status, text } = await runner.call('look', image);
    isSound = status === 0;
    relations = isSound ? relationsOf(text) : [];
    if (!isSound) await showUnsound(text.trim());
    await showRelations();
}

function showName() {
    by('name').textContent = isSaved ? name : `${name}, not saved`;
}

/** Says what is wrong with the image, and what `repair` makes of a copy, or would with more sectors. */
async function showUnsound(reply) {
    const lines = linesOf((await runner.call('check', image)).text).slice(0, -1);
    repaired = await runner.call('repair', image);
    const effect = lines.length ? ', and changes this in the database:' : ' and changes nothing in the database.';
    const what = {
        0: `Repair makes it sound again${effect}`,
        3: `A repair needs more room (${repaired.text.trim()}): add sectors below. It makes the image sound again${effect}`,
        6: 'No power cut leaves an image like this, and repair refuses it.',
    }[repaired.status];
    by('notice').hidden = false;
    by('why').textContent = `This image is not sound: ${reply} (a rule of docs/FORMATS.md and its place). ${what}`;
    by('effects').replaceChildren(...lines.map(it => made('li', it)));
    by('repair').hidden = repaired.status !== 0;
}

// ---- queries

async function carryOut(input) {
    script.remember();
    by('ended').textContent = '';
    const begun = performance.now();
    const result = await runner.call('run', image, input);
    await tell(result, input, `${(performance.now() - begun).toFixed(1)} ms`);
}

async function tell(result, input, took) {
    const hasChanged = !areSame(result.image, image);
    if (hasChanged) await accept(result.image, name, false);
    showReplies(result, took);
    if (hasChanged) await show();
    const text = typeof input === 'string' ? input : new TextDecoder().decode(input);
    showAnswers(text, result.status === 6 ? [] : linesOf(result.text));
}

function linesOf(text) {
    return text.split('\n').slice(0, -1);
}

function showReplies({ status, text }, took) {
    const lines = linesOf(text);
    const last = lines.slice(-SHOWN_LINES);
    by('replies').replaceChildren(...last.map(it => made('span', `${it}\n`, isRefusal(it) ? 'refused' : '')));
    by('replies').scrollTop = by('replies').scrollHeight;
    const refused = status === 6 ? 0 : lines.filter(isRefusal).length;
    const [count, shown, all] = [refused, last.length, lines.length].map(it => it.toLocaleString('en'));
    const part = last.length < lines.length ? `, the last ${shown} of ${all} lines` : '';
    const refusals = refused ? `, ${count} refused` : '';
    by('ended').textContent = `Status ${status}: ${STATUSES[status]}${refusals}. ${took}${part}`;
}

function areSame(one, other) {
    const [these, those] = [one, other].map(it => new Int32Array(it.buffer, it.byteOffset, it.length >> 2));
    let at = 0;
    while (at < these.length && these[at] === those[at]) at++;
    return at === these.length;
}

/** Offers the answers with rows, and shows the last one. */
function showAnswers(text, lines) {
    answers = answersOf(text, lines, relations);
    by('answer').hidden = answers.length === 0;
    by('which').replaceChildren(...answers.map((it, at) => new Option(it.command.slice(0, 120), at)));
    by('which').hidden = answers.length < 2;
    by('which').value = answers.length - 1;
    if (answers.length) showAnswer();
}

function showAnswer() {
    const { command, columns, lines } = answers[by('which').value];
    const rows = lines.map(valuesOf);
    const known = rows[0].map((_, at) => columns[at] ?? { name: `column ${at + 1}`, domain: '' });
    answerSheet.show(known, rows, 'answer', answers.length < 2 ? command : '');
}

// ---- relations

async function showRelations() {
    chosen = relations.find(it => it.name === chosen?.name) ?? relations[0];
    by('relations').dataset.none = isSound ? 'There is no relation yet. CREATE RELATION makes one.'
        : 'The relations of this image cannot be read.';
    by('relations').replaceChildren(...relations.map(buttonOf));
    const columns = chosen?.attributes ?? [];
    const rows = columns.length ? rowsOf((await runner.call('run', image, queryFor(chosen))).text) : [];
    relationSheet.show(columns, rows, chosen?.name ?? '', chosen ? noteOf(chosen) : '');
}

function buttonOf(relation) {
    const button = made('button', `${relation.name} `);
    button.append(made('small', relation.rows.toLocaleString('en')));
    button.setAttribute('aria-pressed', relation === chosen);
    button.addEventListener('click', () => doing(async () => {
        chosen = relation;
        await showRelations();
        by('relations').children[relations.indexOf(relation)].focus();
    }));
    return button;
}

function noteOf({ removed, left }) {
    return `Removed rows: ${removed.toLocaleString('en')}. Free slots: ${left.toLocaleString('en')}.`;
}

// ---- files and buttons

async function takeFile(file) {
    const { kind, why } = kindOf(file);
    if (why) return say(why);
    if (kind === 'image') {
        if (await mayGo()) await take(new Uint8Array(await file.arrayBuffer()), file.name.replace(/\.[^.]*$/, ''));
        return;
    }
    if (file.size <= MOST_SHOWN) {
        script.text = await file.text();
        by('script').focus();
        return;
    }
    const choices = { run: 'Run it', '': 'Cancel' };
    const size = file.size.toLocaleString('en');
    const question = `${file.name} has ${size} bytes, too many to show here. Run it on ${name}?`;
    if (await chosenIn(by('question'), question, choices)) {
        await carryOut(new Uint8Array(await file.arrayBuffer()));
    }
}

async function takeSample() {
    const text = await (await fetch('sample.aql')).text();
    const { image: made } = await runner.call('run', new Uint8Array(SAMPLE_SECTORS * SECTOR), text);
    await take(made, 'sample');
    script.text = SAMPLE_SCRIPT;
    await carryOut(SAMPLE_SCRIPT);
}

/** Saves the database as a script, in as many parts as it needs runs, or says why there is none. */
async function saveScript() {
    if (!isSound) return say('No script was saved: the image is not sound. Repair it first.');
    const { status, bytes } = await runner.call('dump', image);
    if (status !== 0) return say(`No script was saved: ${STATUSES[status]}.`);
    const parts = partsOf(bytes);
    if (parts.length === 1) return linkTo(bytes, `${name}.aql`).click();
    const items = parts.map((part, at) => {
        const item = made('li', '');
        item.append(linkTo(part, `${name}-${at + 1}.aql`));
        return item;
    });
    say('The script is longer than one run takes. Save all its parts, and run them in this order:', items);
}

/** Makes the flash longer, as far as an image goes. */
async function addSectors() {
    const longer = lengthened(image, MORE_SECTORS);
    if (longer.length === image.length) return say('An image has at most 4,095 sectors.');
    await accept(longer, name, false);
    await show();
}

async function markSaved() {
    await accept(image, name, true);
    showName();
}

function listen() {
    const clicks = {
        new: async () => await mayGo() && take(new Uint8Array(NEW_SECTORS * SECTOR), 'station'),
        sample: async () => await mayGo() && takeSample(),
        dump: saveScript,
        more: addSectors,
        repair: () => tell(repaired, '', 'Repaired'),
    };
    for (const [id, action] of Object.entries(clicks)) by(id).addEventListener('click', () => doing(action));
    by('stop').addEventListener('click', () => runner.stop());
    by('which').addEventListener('change', showAnswer);
    by('save').addEventListener('click', event => {
        if (isBusy) event.preventDefault();
        doing(markSaved);
    });
    by('file').addEventListener('change', event => {
        const [file] = event.target.files;
        if (file) doing(() => takeFile(file));
        // the same file may be chosen again
        event.target.value = '';
    });
    by('ask').addEventListener('submit', event => {
        event.preventDefault();
        doing(() => carryOut(script.text));
    });
    by('script').addEventListener('keydown', event => {
        if (event.key === 'Enter' && (event.ctrlKey || event.metaKey)) doing(() => carryOut(script.text));
    });
    listenToDrops();
    addEventListener('beforeunload', event => {
        if (!keep && !isSaved) event.preventDefault();
    });
}

function listenToDrops() {
    for (const kind of ['dragover', 'dragleave', 'drop']) {
        addEventListener(kind, event => {
            event.preventDefault();
            document.body.classList.toggle('over', kind === 'dragover');
            const files = kind === 'drop' ? event.dataTransfer.files : [];
            if (files.length) doing(() => (files.length > 1 ? say('Drop one file at a time.') : takeFile(files[0])));
        });
    }
}

/** Shows the image that this tab had before a reload, or the sample. */
async function takeFirst() {
    let last;
    try {
        keep = await Keep.open();
        last = await keep.read();
    } catch (error) {
        keep = undefined;
        by('kept').textContent = notKept(error);
    }
    if (!last) return takeSample();
    await take(last.image, last.name, last.isSaved);
    by('ended').textContent = `${name} is as you left it.`;
}

async function begin() {
    try {
        const bytes = await (await fetch('sorachest.wasm')).arrayBuffer();
        runner = new Runner(await WebAssembly.compile(bytes));
    } catch (error) {
        const browsers = 'It needs a browser with 64-bit WebAssembly, such as Chrome 133 or Firefox 134.';
        say(`The library could not be loaded: ${error.message}. ${browsers}`);
        return;
    }
    listen();
    await doing(takeFirst);
}

await begin();
document.documentElement.dataset.ready = 'yes';
