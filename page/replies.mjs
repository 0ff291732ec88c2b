// A script and its replies, matched: each command has one reply, which ends with `ok`, `rows K` or `no ..`.

const MOST_ANSWERS = 50;

/** Whether a line of replies is a refusal. */
export function isRefusal(line) {
    return line.startsWith('no ');
}

/** The commands of a script that get a reply: it is cut at each `;` outside of quotes, and blank pieces get none. */
export function commandsOf(script) {
    const commands = [];
    let from = 0;
    let isQuoted = false;
    const cut = to => {
        const piece = script.slice(from, to);
        if (/[^ \t\r\n]/.test(piece)) commands.push(piece);
        from = to + 1;
    };
    for (let at = 0; at < script.length; at++) {
        const letter = script[at];
        if (letter === "'") isQuoted = !isQuoted;
        else if (letter === '\n') isQuoted = false;
        else if (letter === ';' && !isQuoted) cut(at);
    }
    cut(script.length);
    return commands;
}

/** The last answers with rows: of each the command, its columns, and its lines. */
export function answersOf(script, lines, relations) {
    const commands = commandsOf(script);
    const cursors = {};
    const answers = [];
    let first = 0;
    let at = 0;
    lines.forEach((line, end) => {
        if (line !== 'ok' && !line.startsWith('rows ') && !isRefusal(line)) return;
        const tokens = tokensOf(commands[at++] ?? '');
        const verb = tokens[0]?.toUpperCase();
        if (verb === 'OPEN' && line === 'ok') cursors[tokens[1]] = tokens.slice(2);
        if (end > first) {
            const query = verb === 'FETCH' ? cursors[tokens[1]] ?? [] : tokens;
            const command = commands[at - 1]?.trim() ?? '';
            answers.push({ command, columns: columnsOf(query, relations), lines: lines.slice(first, end) });
            if (answers.length > MOST_ANSWERS) answers.shift();
        }
        first = end + 1;
    });
    return answers;
}

function tokensOf(command) {
    return command.match(/'[^'\n]*'|[A-Za-z]\w*|\d+|[^\s]/g) ?? [];
}

// The columns of a query by its list, with the domains of the attributes where they are known.
function columnsOf(tokens, relations) {
    const word = name => tokens.findIndex(it => it.toUpperCase() === name);
    const isJoin = tokens[0]?.toUpperCase() === 'JOIN';
    const [from, to] = isJoin ? [word('PROJECT') + 1, tokens.length] : [1, word('FROM')];
    const sources = isJoin ? [tokens[1], tokens[3]] : [tokens[word('FROM') + 1]];
    const attributes = sources.flatMap(name => relations.find(it => it.name === name)?.attributes ?? []);
    return tokens.slice(from, to).join('').split(',').filter(it => it).map(name => {
        const [, aggregate, of] = /^(\w+)\((\w+)\)$/.exec(name) ?? [null, '', name];
        const isValue = !/^(COUNT|SUM)$/i.test(aggregate);
        return { name, domain: isValue ? attributes.find(it => it.name === of)?.domain ?? '' : '' };
    });
}
