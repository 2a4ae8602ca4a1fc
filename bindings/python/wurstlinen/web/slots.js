// The universe as 512 slots: who has which. Fixtures are moved by drag, or by keys.
import { act, addressOf, draw, redraw } from "/app.js";
import { button, classes, isTouched, make, plural } from "/dom.js";
import { alarm } from "/discovery.js";
import { nameOf, placedNameOf, problemOf, slotsOf, slotsText } from "/fixtures.js";
import { fixtureOf, maySend, parts, partsOf } from "/server.js";

const LAST = 512, MOST_PROBLEMS = 5;
const HELP = { touch: "Tap a fixture to select it. Then drag it, or type its address.",
    mouse: "Drag a fixture, or select it and use the arrow keys; Enter moves it, Escape leaves it where it was." };
const isNarrow = matchMedia("(max-width: 700px)"), width = () => (isNarrow.matches ? 8 : 32);
const rowOf = (slot) => Math.ceil(slot / width());
const areaOf = (from, to) => `grid-area: ${rowOf(from)} / ${(from - 1) % width() + 1} / auto / span ${to - from + 1};`;
const nameWithSlots = (found) => `${placedNameOf(found)}, ${slotsText(found)}`;
const mayMove = (uid) => maySend() && fixtureOf(uid) && !fixtureOf(uid).missing;
const selected = () => document.activeElement?.dataset.uid;
// The fixture that is being moved, and where it is now; the drag, if it is one; and by what the page is used.
let moving = null, drag = null, hand = isTouched ? "touch" : "mouse";

// The fixtures that have slots, by address. Those that share slots are in lanes, one below another.
function placed() {
    const ends = [], all = partsOf("fixture/").filter((found) => found.first)
        .sort((one, other) => one.first - other.first || (one.uid < other.uid ? -1 : 1));
    return all.map((found) => {
        const free = ends.findIndex((end) => end < found.first), lane = free < 0 ? ends.length : free;
        ends[lane] = found.last;
        return { ...found, lane, ...(found.uid === moving?.uid ? moving : {}) };
    });
}

// How many fixtures have each slot; parts of one device may share slots.
const ownersOf = (fixtures) => Array.from({ length: LAST }, (_, at) => new Set(fixtures.filter(({ first, last }) =>
    first <= at + 1 && at + 1 <= last).map(({ root }) => root)).size);

function move(uid, to) {
    const { first, last } = fixtureOf(uid), size = last - first + 1;
    const start = Math.min(Math.max(to, 1), LAST + 1 - Math.min(size, LAST));
    draw(moving = { uid, first: start, last: start + size - 1, lane: 0 });
}

async function finish(isWanted) {
    const { uid, first } = moving ?? {};
    drag?.abort();
    draw(moving = drag = null);
    if (isWanted && uid && first !== fixtureOf(uid)?.first) {
        await act("change", { uid, column: "address", value: String(first) },
            `${nameOf(fixtureOf(uid))} moved to ${first}.`);
    }
}

function hint(fixtures) {
    const before = fixtureOf(moving?.uid);
    const others = fixtures.filter((each) => before && each.root !== before.root && each.first <= moving.last
        && each.last >= moving.first).map(placedNameOf).map((name) => `“${name}”`).join(", ");
    const uid = selected(), isFinger = hand === "touch", help = isFinger && mayMove(uid)
        ? [`${nameWithSlots(fixtureOf(uid))}: drag it, or `, make("a", { href: addressOf("fixture", uid),
            "data-uid": uid }, "type its address.")] : HELP[isFinger ? hand : "mouse"];
    const ways = isFinger ? drag && " Let go to send or cancel it." : ` ${drag ? "Letting go" : "Enter"} ${
        others ? "asks" : "sends it"}; Escape leaves it where it was.`;
    return before ? [`${nameOf(before)}, not sent yet: ${slotsText(before)} → ${slotsOf(moving)}, ${others
        ? `overlaps ${others}` : "free"}.${ways || ""}`, !drag && [" ", button("Send", () => finish(true),
        { class: "main" }), " ", button("Cancel", () => finish(false))]] : maySend() ? [help] : [];
}

function keyed(event) {
    hand = "keys";
    const { uid } = event.target.dataset, now = moving?.uid === uid ? moving.first : fixtureOf(uid)?.first;
    const steps = { ArrowLeft: now - 1, ArrowRight: now + 1, ArrowUp: now - width(), ArrowDown: now + width(), Home: 1,
        End: LAST };
    if (event.key in steps && mayMove(uid)) {
        event.preventDefault();
        move(uid, steps[event.key]);
    } else if (moving && ["Enter", "Escape"].includes(event.key)) {
        event.preventDefault();
        finish(event.key === "Enter");
    }
}

const slotAt = ({ clientX, clientY }) => Number(document.elementsFromPoint(clientX, clientY)
    .find((each) => each.matches("i"))?.textContent);

function dragged(event) {
    const { uid } = event.target.dataset;
    hand = event.pointerType;
    // On a phone a finger scrolls, unless the fixture was selected before.
    if (!uid || !mayMove(uid) || (event.pointerType === "touch" && selected() !== uid)) {
        return;
    }
    drag?.abort();
    drag = new AbortController();
    const within = slotAt(event) - (moving?.uid === uid ? moving : fixtureOf(uid)).first, { signal } = drag;
    // Beside the slots it stays where it was, and one that is missing by now, too.
    addEventListener("pointermove", (moved) => slotAt(moved) && mayMove(uid) && move(uid, slotAt(moved) - within),
        { signal });
    // A finger covers where it is: what it has moved is sent by a button.
    addEventListener("pointerup", () => (hand === "touch" && moving && moving.first !== fixtureOf(uid)?.first
        ? draw(drag = drag.abort()) : finish(true)), { signal });
    addEventListener("pointercancel", () => finish(false), { signal });
}

// The parts of a fixture in the grid's rows. The first with room for its name, or the last, is for keys and listeners.
function piecesOf(found, owners) {
    const { uid, first, last, lane, missing } = found, end = Math.min(last, LAST), pieces = [];
    for (let from = first; from <= end; from = rowOf(from) * width() + 1) {
        const to = Math.min(end, rowOf(from) * width());
        const isMain = pieces.every(({ kind }) => kind === "div") && (to > from + 1 || to === end);
        const isCrowded = owners.slice(from - 1, to).some((count) => count > 1);
        const shared = { key: isMain ? uid : `${uid} ${pieces.length}`, "data-uid": uid, title: nameWithSlots(found),
            class: classes("piece", missing && "away", isCrowded && "crowded", moving?.uid === uid && "moving"),
            style: `${areaOf(from, to)} --lane: ${lane}` };
        pieces.push(isMain ? make("button", { ...shared, type: "button", onblur: redraw, onfocus: redraw,
            "aria-label": `${nameWithSlots(found)}${isCrowded ? ", overlaps another" : ""}` },
        placedNameOf(found)) : make("div", { ...shared, "aria-hidden": "true" }, `… ${placedNameOf(found)}`));
    }
    return pieces;
}

export function view() {
    const fixtures = placed(), owners = ownersOf(fixtures), all = partsOf("fixture/");
    const unknown = all.filter((found) => ["…", "unknown"].includes(slotsOf(found))).length;
    const crowded = owners.filter((each) => each > 1).length, free = owners.filter((each) => !each).length;
    const problems = parts.get("problems") ?? [];
    const isMoot = (each) => moving && [each.uid, each.other].includes(moving.uid);
    const more = problems.slice(MOST_PROBLEMS).filter((each) => !isMoot(each)).length;
    const old = fixtureOf(moving?.uid), isOld = (slot) => old && old.first <= slot && slot <= old.last;
    const opened = ({ target: { dataset: { uid } } }) => uid && (location.hash = addressOf("fixture", uid));
    return [alarm(), make("p", {}, !all.length ? "No fixture so far, so no slot is known to be taken."
        : `${free} of 512 slots (DMX channels) are free${crowded ? `, ${crowded} shared` : ""}${
            unknown ? `, those of ${plural(unknown, "fixture")} unknown` : ""}${moving ? ", once this is sent" : ""}.`),
        // What is wrong with a fixture so far isn't shown beside where it is moved to, which may be free.
        make("ul", { class: "problems" }, problems.slice(0, MOST_PROBLEMS).map((each) => make("li",
            { class: classes(isMoot(each) && "moot") },
            `${nameWithSlots(fixtureOf(each.uid) ?? {})}, ${problemOf(each, each.uid)}`)),
        problems.length > MOST_PROBLEMS && make("li", {}, `and ${more} more`)),
        make("div", { class: "universe", role: "group", "aria-label": "512 slots", style: `--columns: ${width()}`,
            onkeydown: keyed, onpointerdown: dragged, ondblclick: opened },
        owners.map((count, at) => make("i", { class: classes(count > 1 && "crowded", isOld(at + 1) && "old"),
            style: areaOf(at + 1, at + 1) }, String(at + 1))), fixtures.map((found) => piecesOf(found, owners)).flat()),
        make("p", { class: "hint", role: "status" }, hint(fixtures))];
}

isNarrow.addEventListener("change", redraw);
