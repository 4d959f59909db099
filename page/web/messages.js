// What the server says. A message, or a part of one, that this page does not know or that has another form is left out,
// so that a newer server can say more.

const isText = value => typeof value === 'string';
const isNumber = value => Number.isInteger(value) && value >= 0;
const isYesOrNo = value => typeof value === 'boolean';
const isSite = value => isNumber(value) && value >= 1 && value <= 8;
const areTexts = value => Array.isArray(value) && value.every(isText);
const isAddress = value => value === null || isText(value) && /^\/[A-Za-z0-9_-]+\/$/.test(value);
const isDesigner = one => isSite(one?.site) && isText(one.name) && isNumber(one.pages) && areTexts(one.holds);
const areNames = value => Boolean(value) && typeof value === 'object' && Object.values(value).every(areTexts);

const FORMS = {
    you: isSite, draws: isYesOrNo, turn: isNumber, last: isNumber,
    request: isText, taken: isNumber, made: isText, refused: isText, behind: isNumber, watching: isText, again: isText,
    drawing: isText, status: isText, fault: isText, names: areNames, address: isAddress,
    designers: value => Array.isArray(value) && value.every(isDesigner),
};

// The known parts of a message.
export function heard(data) {
    const isKnown = ([part, value]) => Object.hasOwn(FORMS, part) && FORMS[part](value);
    return Object.fromEntries(Object.entries(parsed(data)).filter(isKnown));
}

function parsed(data) {
    try {
        const said = JSON.parse(data);
        return said && typeof said === 'object' && !Array.isArray(said) ? said : {};
    } catch {
        return {};
    }
}

// The name of each object that has one. If it has several, the first one counts, as for `draw`.
export function namesOfObjects(names) {
    const found = new Map();
    for (const [name, objects] of Object.entries(names))
        for (const object of objects) if (!found.has(object)) found.set(object, name);
    return found;
}
