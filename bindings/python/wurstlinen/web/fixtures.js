// The table of fixtures, in which values are edited in place; and the walk along the truss.
import { act, addressOf, busily, busy, busyAs, mayUndo, redraw, say, undo } from "/app.js";
import { absent, alarm, isUnderWay } from "/discovery.js";
import { button, classes, isTouched, make, plural } from "/dom.js";
import { fixtureOf, maySend, mayUse, parts, partsOf } from "/server.js";

const COLUMNS = { label: "Label", address: "Address", slots: "At slots", personality: "Personality", model: "Model",
    uid: "UID" };
export const SENDING = isTouched ? "Leaving a box sends what you typed; ✕ before that leaves it as it was."
    : "Enter, or leaving a field, sends what you typed; Escape before that restores it.";
const WALKING = "Identify next stops the one before it; it goes through what is shown, in this order.";
const PAUSED = "RDM is paused: what you send, Identify and Stop wait until it is resumed. Undo waits for that, too.";
const chosen = { filter: "", column: "address", isDown: false };
// The fixture to which this page's walk has come, which the page's program may not have shown so far.
let walked = null;

export const nameOf = (found) => found?.label || (found?.model && found.address ? `${found.model} at ${found.address}`
    : found?.model || found?.uid || "");
// The same with the UID of one without a label, and the word for one whose slots count though it isn't there.
export const placedNameOf = (found) => nameOf(found) + (found?.model && !found.label ? ` (${found.uid})` : "")
    + (found?.missing ? " (missing)" : "");
// A text of the page's program, in which fixtures have their names, too.
export const UID = /[0-9a-f]{4}:[0-9a-f]{8}/g;
export const named = (text) => text.replace(UID, (uid) => linked(uid).map((each) => each.children ?? each).join(""));
// Which exchange shows it, which only those understand who know RDM.
export const DETAIL = / \(exchange [^)]*\)/;
// A text without what is to be done, which isn't said while another discovery is under way.
export const withoutAdvice = (text) => text
    .replace(/[:;] (first |if it happens again, )?(check|name it|see|split|take) .*?(?= \(exchange |$)/, "");
export const advised = (text) => (isUnderWay() ? withoutAdvice(text) : text);
// The name of a fixture, which leads to it; or else its label in the file.
export function linked(uid) {
    const found = fixtureOf(uid), planned = parts.get("file")?.differences.find((each) => each.uid === uid);
    const name = nameOf(found) || planned?.label || uid;
    return [found ? make("a", { href: addressOf("fixture", uid) }, name) : name, name === uid ? "" : ` (${uid})`];
}

// What is wrong with the slots of one of two fixtures, or of the only one.
export const problemOf = ({ kind, uid, other }, own) => (kind === "end" ? "ends after slot 512"
    : `overlaps ${placedNameOf(fixtureOf(own === uid ? other : uid))}`);

// The next address from one on at which a fixture shares no slots, with none of the file either; 0 if there is none.
export function freeFrom({ root, first, last }, wanted) {
    const planned = (parts.get("file")?.planned ?? []).filter(([uid]) => fixtureOf(uid)?.root !== root)
        .map(([, at, count]) => ({ first: Number(at), last: Number(at) + (Number(count) || 1) - 1 }));
    const others = [...partsOf("fixture/").filter((each) => each.first && each.root !== root), ...planned];
    const isFree = (at) => at + last - first <= 512
        && others.every((each) => at + last - first < each.first || each.last < at);
    const all = [1, ...others.map((each) => each.last + 1)].filter(isFree).sort((one, other) => one - other);
    return all.find((at) => at >= wanted) ?? all[0] ?? 0;
}

export function notesOf({ uid, missing, notes }) {
    const problems = (parts.get("problems") ?? []).filter((each) => each.uid === uid || each.other === uid);
    const [ends, overlaps] = ["end", "overlap"].map((wanted) => problems.filter(({ kind }) => kind === wanted)
        .map((each) => problemOf(each, uid)));
    const waits = parts.get("line")?.paused && [...busy.keys()].some((name) => name.startsWith(uid));
    return [waits && "waits until RDM is resumed, and can't be taken back before",
        missing && `missing: ${advised(missing)}`, ...notes.map((each) => each.replaceAll("_", " ")),
        ...ends, ...(overlaps.length > 3 ? [`overlaps ${overlaps.length} others`] : overlaps)]
        .filter(Boolean);
}

export const remarksOf = ({ uid, root, is_slow: isSlow }) => [root === uid ? "" : `part of ${nameOf(fixtureOf(root))
    || root}`, isSlow ? "answers slowly" : ""].filter(Boolean);
export const slotsOf = ({ first, last, slots, is_read: isRead }) => (first ? [...new Set([first, last])].join("-")
    : !isRead ? "…" : slots === null ? "unknown" : "none");
export const slotsText = (found) => `slot${found.first && found.first === found.last ? "" : "s"} ${slotsOf(found)}`;

export function ordered() {
    const words = chosen.filter.toLowerCase().split(" ");
    const keyOf = (found) => String(found[chosen.column] ?? "").toLowerCase();
    const textOf = (found) => [found.uid, found.label, found.model, found.manufacturer, found.address,
        ...notesOf(found), ...remarksOf(found)].join(" ").toLowerCase();
    // The row in which somebody types stays.
    const held = document.activeElement.closest("tr")?.id;
    const wanted = partsOf("fixture/").filter((found) => found.uid === held
        || words.every((word) => textOf(found).includes(word)));
    const compare = new Intl.Collator("en", { numeric: chosen.column !== "uid" }).compare;
    const sign = chosen.isDown ? -1 : 1;
    // What isn't known comes last.
    return wanted.sort((one, other) => (keyOf(one) === "") - (keyOf(other) === "")
        || sign * compare(keyOf(one), keyOf(other)) || (one.uid < other.uid ? -1 : 1));
}

function personalitiesOf({ personality, personality_name: name, personalities, slots }) {
    const known = personality ? [{ number: personality, name: name ?? "", slots }] : [];
    return (personalities.length ? personalities : known).map((each) => make("option", { value: each.number },
        `${each.number} ${each.name} (${plural(each.slots, "slot")})`));
}

// What a fixture has in a column, or will have if it refuses nothing that is on its way.
export const valueOf = (uid, column) => busy.get(`${uid}/${column}`) ?? String(fixtureOf(uid)?.[column] ?? "");

// Sends a value, which is read back and shown. What is sent meanwhile follows it; of several the last one.
export function send(uid, column, value) {
    const name = `${uid}/${column}`;
    if (busy.has(name)) {
        busy.set(name, value);
    } else if (value !== valueOf(uid, column)) {
        busily(name, async () => {
            for (let last = null; last !== busy.get(name);) {
                last = busy.get(name);
                const before = fixtureOf(uid), isMade = await act("change", { uid, column, value: last });
                // It was read back, of which the page hears a moment later.
                before && isMade && before === fixtureOf(uid) && (before[column] = last);
            }
        }, value);
    }
}

// An input for a value. What is typed is sent; what was refused comes back.
export function editor(found, column) {
    const { uid } = found, name = `${uid}/${column}`, isChoice = column === "personality", isLabel = column === "label";
    const leaveIt = ({ target: { value, isTyped }, target }) => {
        redraw(target.isTyped = false);
        isTyped && send(uid, column, isLabel ? value : value.trim());
    };
    const restore = ({ target }) => redraw(Object.assign(target, { value: valueOf(uid, column), isTyped: false }));
    const onkeydown = (event) => ({ Escape: restore, Enter: leaveIt })[event.key]?.(event);
    // A phone has no Escape. The box isn't left before what was typed is gone. What was sent can't be taken back.
    const own = document.activeElement, isTyped = own.name === name && own.isTyped;
    const leave = button("✕", ({ target: { previousSibling: target } }) => (restore({ target }), target.blur()),
        { class: "leave", onpointerdown: (event) => event.preventDefault(), "aria-label": "Leave it as it was" });
    return [make(isChoice ? "select" : "input", { ...busyAs(name, column), name, shown: valueOf(uid, column),
        onkeydown, oninput: redraw, onchange: leaveIt, onblur: leaveIt, autocomplete: "off", spellcheck: "false",
        "aria-label": `${COLUMNS[column]} of ${nameOf(found)}`, inputmode: column === "address" ? "numeric" : null,
        maxlength: isLabel ? 128 : null, placeholder: isLabel && found.is_read ? nameOf(found) : null,
        disabled: !maySend() || Boolean(found.missing) || !found.is_read
            || (isChoice && found.personalities.length < 2) }, isChoice ? personalitiesOf(found) : []),
    isTouched && isTyped && !isChoice && leave];
}

// What was changed last, if it was here, and what takes it back.
export const changeOf = ({ uid }, last = parts.get("undo")) => last?.uid === uid && button(`${last.made} · Undo`,
    () => undo(last), { class: "made", disabled: !mayUndo() });

export function identifier(found, size = "") {
    const { uid, identifies, missing } = found, name = `${uid}/identify`, on = !identifies;
    return button(identifies ? `Identifying${size && " · Stop"}` : "Identify", () => {
        walked = on ? uid : null;
        busily(name, () => act("identify", { uid, on }));
    }, { ...busyAs(name, "identify", size), role: "switch", "aria-checked": String(Boolean(identifies)),
        "aria-label": `Identify ${nameOf(found)}`, disabled: !maySend() || Boolean(missing) });
}

// The walk: the next fixture shows itself, and the one before stops.
export async function walk(from, step) {
    const all = ordered().filter((found) => !found.missing), at = all.findIndex((found) => found.uid === from);
    const next = all[at < 0 ? (step > 0 ? 0 : all.length - 1) : at + step];
    walked = next?.uid ?? null;
    const keys = next ? { uid: walked, on: true, only: true } : { uid: from, on: false };
    (next || from) && await act("identify", keys) && !next && say("That was the last one.");
    return walked;
}

async function walkInTable() {
    const now = walked ?? ordered().filter((found) => found.identifies).pop()?.uid ?? null;
    document.getElementById(await walk(now, 1))?.scrollIntoView({ block: "nearest" });
}

function rowOf(found) {
    const { uid, missing, identifies } = found;
    const note = found.is_read || missing ? notesOf(found).join("; ") : "is being asked …";
    const cells = { "of-identify": identifier(found), "of-label": editor(found, "label"),
        "of-address": editor(found, "address"), slots: slotsOf(found), "of-personality": editor(found, "personality"),
        model: [found.manufacturer, found.model].filter(Boolean).join(" "), uid,
        note: [changeOf(found), missing && mayUse() && button("Remove from the list", () => act("forget", { uid })),
            make("p", { title: note }, make("span", {}, note.replace(DETAIL, "")), " ",
                make("small", {}, remarksOf(found).join("; ")))],
        "of-more": make("a", { href: addressOf("fixture", uid), class: "more",
            "aria-label": `All about ${nameOf(found)}` }, "›") };
    return make("tr", { key: uid, id: uid, class: classes(missing && "missing", identifies && "identifies") },
        Object.entries(cells).map(([name, inside]) => make("td", { class: name }, inside)));
}

const choose = (wanted) => redraw(Object.assign(chosen, wanted));
const sortBy = (column) => choose({ column, isDown: chosen.column === column && !chosen.isDown });

// How many fixtures of a file are missing, how many aren't in it, what else differs, and overlaps that it doesn't have.
export function differencesOf({ differences: all }) {
    const count = (wanted) => all.filter(({ kind }) => kind === wanted).length;
    const missing = count("missing"), unlisted = count("new"), overlaps = count("overlap");
    const others = all.length - missing - unlisted - overlaps;
    return [missing && `${missing} of its fixtures missing`, unlisted && `${unlisted} not in it`,
        (others || !all.length) && plural(others, "difference"),
        overlaps && `${plural(overlaps, "overlap")} on the line now`].filter(Boolean).join(", ");
}

function tools(all, shown) {
    const missing = absent().length, file = parts.get("file"), found = all.filter((each) => !each.missing).length;
    return make("div", { class: "tools" },
        button("Identify next", walkInTable, { class: "main", disabled: !maySend() || !shown.length }),
        make("input", { type: "search", placeholder: "label, UID, model …", "aria-label": "Show only",
            shown: chosen.filter, oninput: ({ target }) => choose({ filter: target.value }) }),
        make("select", { class: "narrow", "aria-label": "Sort by", shown: chosen.column,
            onchange: ({ target }) => (target.isTyped = false, sortBy(target.value)) },
        Object.entries(COLUMNS).map(([value, title]) => make("option", { value },
            `sort: ${value === "uid" ? title : value}`))),
        make("p", { class: "count", role: "status" }, (isUnderWay() ? "a discovery runs" : missing
            ? `${found} found, ${missing} missing` : plural(all.length, "fixture"))
            + (shown.length === all.length ? "" : `, ${shown.length} shown`)),
        file && make("a", { href: addressOf("file") }, `${file.name}: ${differencesOf(file)}`));
}

export function view() {
    const all = partsOf("fixture/"), shown = ordered(), head = (inside, order = null) => make("th",
        { scope: "col", "aria-sort": order }, inside);
    const orderOf = (column) => (chosen.column !== column ? "none" : chosen.isDown ? "descending" : "ascending");
    const heads = Object.entries(COLUMNS).map(([column, title]) => head(button(title, () => sortBy(column)),
        orderOf(column)));
    const none = ["No fixture so far: ", make("a", { href: addressOf("discovery") }, "Discovery"), " says more."];
    const help = `${SENDING} ${parts.get("line")?.paused ? PAUSED : WALKING}`;
    return [alarm(), tools(all, shown), make("p", { class: "sending" }, all.length ? mayUse() && help : none),
        make("table", { class: "rig" }, make("thead", {}, make("tr", {}, head("Identify"), heads, head("Note"),
            head("More"))), make("tbody", {}, shown.map(rowOf)))];
}
