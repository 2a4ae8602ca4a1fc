// Describes elements, and has them shown. All that comes from fixtures is text, and never HTML.

// An element that is wanted. With a `key` it is the same one in whichever place; `shown` is what an input shows unless
// something else is typed in it. null, false and "" are no children.
export const make = (kind, attributes = {}, ...children) => ({ kind, attributes, children: children.flat(Infinity) });

export const button = (text, onclick, attributes = {}) => make("button", { type: "button", onclick, ...attributes },
    text);
export const isTouched = matchMedia("(pointer: coarse)").matches;
export const plural = (count, what) => (count === 1 ? `1 ${what}` : `${count} ${what}s`);

// The names of an element's classes, without those that are false or empty.
export const classes = (...names) => names.filter(Boolean).join(" ");

function set(element, name, value) {
    if (name.startsWith("on") || name === "style") {
        element[name] = value;
    } else if (value === null || value === false) {
        element.removeAttribute(name);
    } else {
        element.setAttribute(name, value === true ? "" : value);
    }
}

// What is typed in an input, or chosen, is its own until it is sent or taken back.
document.addEventListener("input", ({ target }) => (target.isTyped = true));

function update(node, wanted) {
    if (!wanted.kind) {
        return void (node.data === wanted || (node.data = wanted));
    }
    const { key, shown = null, ...attributes } = wanted.attributes, before = node.attributesShown ?? {};
    // Who types isn't thrown out, and what is sent in vain is said to be.
    attributes.disabled &&= !node.isTyped;
    Object.entries(attributes).filter(([name, value]) => before[name] !== value).forEach((each) => set(node, ...each));
    node.attributesShown = attributes;
    show(node, wanted.children);
    if (shown !== null && !node.isTyped && node.value !== shown) {
        // What is selected is about to be typed over.
        const isSelected = node.selectionEnd - node.selectionStart === node.value.length;
        node.value = shown;
        isSelected && node === document.activeElement && node.select();
    }
}

// Has an element show these children, and changes only what differs, so that whoever reads or types isn't disturbed.
export function show(parent, children) {
    const before = parent.childrenShown ?? new Map(), now = parent.childrenShown = new Map();
    children.forEach((wanted, at) => {
        if (wanted) {
            const name = wanted.kind ? `${wanted.kind} ${wanted.attributes.key ?? at}` : `text ${at}`;
            now.set(name, before.get(name) ?? (wanted.kind ? document.createElement(wanted.kind) : new Text()));
            update(now.get(name), wanted);
        }
    });
    [...before].filter(([name]) => !now.has(name)).forEach(([, node]) => {
        // Who is in it leaves it, which sends what is typed.
        node.contains(document.activeElement) && document.activeElement.blur();
        node.remove();
    });
    // A browser takes the focus from what is moved, so while somebody uses one of them their order stays.
    const isHeld = () => parent.contains(document.activeElement)
        && document.activeElement.matches("input, select, .piece");
    [...now.values()].forEach((node, at) => {
        if (parent.childNodes[at] !== node && !(node.isConnected && isHeld())) {
            parent.insertBefore(node, parent.childNodes[at] ?? null);
        }
    });
}
