// What two designers did at once: versions of an object, and deletions that crossed a change.
import {apart} from './fig.js';

// An object as a designer knows it: by the words for it, after its name if it has one.
export function label(words, object, live) {
    const name = live.names.get(object);
    return name ? `${name} (${words})` : words;
}

const ATTRIBUTES = ['place', 'points', 'size', 'colour', 'layer'];

// The figures of objects that have several versions, each with the designer of what tells it apart. A version that an
// undo brought back waits until the server has told each of them apart.
export function versions(figures, live) {
    const told = figures.filter(figure => apart(figure).length), count = new Map();
    for (const {object} of told) count.set(object, (count.get(object) ?? 0) + 1);
    return told.filter(({object}) => count.get(object) > 1).map(figure => {
        const sites = apart(figure).map(operation => operation.split('.')[0]);
        return {figure, designer: live.designer(sites.find(site => site != live.site) ?? sites[0])};
    });
}

// The same by their objects.
export function conflicts(figures, live) {
    const objects = new Map();
    for (const one of versions(figures, live))
        objects.set(one.figure.object, [...objects.get(one.figure.object) ?? [], one]);
    return objects;
}

// As "Ann's place, Ben's colour": the status tells which attribute an operation set.
export function whose(figure, designer, live) {
    const rows = live.status.split('\n').map(line => line.split(' ')).filter(
        ([word, object, attribute]) => word === 'object' && object === figure.object && ATTRIBUTES.includes(attribute));
    const parts = rows.flatMap(([, , attribute, ...operations]) =>
        operations.filter(operation => apart(figure).includes(operation))
            .map(operation => `${live.designer(operation.split('.')[0]).name}'s ${attribute}`));
    return parts.join(', ') || `${designer.name}'s`;
}

// What somebody changed while another one deleted it, or what two deleted at once, which nobody sees.
export function hidden(live) {
    return live.status.split('\n').map(line => line.match(/^object (\S+) hidden(, changed)? by (.*)/)).filter(Boolean)
        .map(([, object, changed, operations]) => {
            const sites = operations.split(/ and | /).map(operation => operation.split('.')[0]);
            const names = [...new Set(sites.map(site => live.designer(site).name))].join(' and ');
            const called = label(object, object, live);
            const words = changed ? `${names} changed ${called}, which was deleted at the same time.`
                : `${names} deleted ${called} at the same time.`;
            return {object, words};
        });
}
