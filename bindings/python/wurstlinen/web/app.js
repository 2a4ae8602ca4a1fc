// The frame of the page: its views, how things are, and messages.
import { button, classes, make, show } from "/dom.js";
import { call, fixtureOf, follow, lost, maySend, parts, partsOf, token } from "/server.js";
import * as discovery from "/discovery.js";
import * as file from "/file.js";
import * as fixture from "/fixture.js";
import * as fixtures from "/fixtures.js";
import * as line from "/line.js";
import * as slots from "/slots.js";

const views = { fixtures, slots, file, discovery, line, fixture };
const TITLES = { fixtures: "Fixtures", slots: "Slots", file: "File", discovery: "Discovery", line: "Line" };
// A press that was meant for what was there before a question comes sooner than the second one.
const MESSAGE_TIME = 6_000, DEAF_TIME = 600;
// What is under way, by names; for an input, the value that is on its way.
export const busy = new Map();
let message = null, place = "";
export const addressOf = (view, rest = "") => `#${token}/${view}${rest ? `/${rest}` : ""}`;

// Says what happened. What went wrong stays until somebody has read it, with what is said meanwhile.
export function say(text, { isBad = false, actions = [] } = {}) {
    const from = document.activeElement, unread = message?.isBad ? message : { text: "", actions };
    const said = message = { text: [...new Set([unread.text, text].join("\n").trim().split("\n"))].join("\n"), from,
        isBad: isBad || unread.isBad, actions: actions.length ? actions : unread.actions, isDeaf: true };
    draw();
    if (actions.length && !(from.matches("input, select") && (from.isTyped || !busy.has(from.name)))) {
        // A question is where keys are, unless these are in a field that hasn't to do with it.
        document.querySelector("#messages button:last-child").focus();
    } else if (!said.isBad && !said.actions.length) {
        setTimeout(() => message === said && close(), MESSAGE_TIME);
    }
    setTimeout(() => (said.isDeaf = false, draw()), DEAF_TIME);
    // What it is about stays in sight.
    const about = from.closest("tr, label")?.getBoundingClientRect().bottom ?? 0;
    scrollBy(0, Math.max(0, Math.ceil(about - document.querySelector(".message").getBoundingClientRect().top)));
}

function close() {
    const { from } = message;
    draw(message = null);
    (document.activeElement === document.body ? from : document.activeElement).focus();
}

export async function busily(name, work, value = null) {
    redraw(busy.set(name, value));
    await work();
    redraw(busy.delete(name));
}

// The attributes of an element for something that may be under way.
export const busyAs = (name, ...names) => ({ class: classes(...names, busy.has(name) && "busy"),
    "aria-busy": busy.has(name) ? "true" : null });

// The answer to a call; nothing if it is a fault, which is said.
export async function asked(name, keys) {
    const answer = await call(name, keys), fault = answer.error || answer.failures?.join("\n");
    return fault ? void say(fixtures.named(fault), { isBad: true }) : answer;
}

// Does something, says how it ended, and returns whether it was done. If slots would overlap, that is a question first.
export async function act(name, keys, done = "") {
    const answer = await asked(name, keys), { made = 0, problems = [] } = answer ?? {};
    if (problems.length && !made) {
        const found = fixtureOf(keys.uid), whose = fixtures.nameOf(found);
        const free = keys.column === "address" ? fixtures.freeFrom(found, Number(keys.value)) : 0;
        const instead = { text: `Set ${whose} to ${free}, the next free address`, act: () => act(name, { ...keys,
            value: String(free) }, `${whose}: address ${free} was set, and read back.`) };
        const again = { text: "Do it anyway", act: () => act(name, { ...keys, force: true }, done) };
        say(`Not done: ${problems.join("; ").replaceAll("; after this,", ";")}.`,
            { isBad: true, actions: [...(free ? [instead] : []), again] });
    } else if (answer && done) {
        say(done);
    }
    return Boolean(answer) && (made > 0 || !problems.length);
}

function statusText(now) {
    const mode = now?.paused ? "paused: no RDM request is sent" : parts.get("role") === "looks" && "view only";
    return token === "" ? "Not connected: this link isn't whole."
        : lost || !now ? `Not connected: ${lost || "no line so far"}.${parts.size ? " What you see is old." : ""}`
            : now.there ? [mode === "view only" && mode, now.name, now.paused && mode].filter(Boolean).join(" · ")
                : now.served ? `${now.name}: adapter unplugged, waiting for it; what you see is old`
                    : `No line: ${now.reason}`;
}

// Takes the last change back, where that is said. In a pause it isn't the last: another one may wait.
export const mayUndo = () => maySend() && !parts.get("line").paused;
const backText = ({ uid, back }) => `${fixtures.named(uid)}: ${back}`;
export const undo = (last) => act("undo", { text: last.text }, `Undone: ${backText(last)}.`);

function header(name) {
    const last = parts.get("undo"), now = parts.get("line"), isBad = !token || lost || !now?.there || now.paused;
    const all = partsOf("fixture/").filter((found) => found.identifies && !found.missing);
    const names = all.map(fixtures.placedNameOf).join(", ");
    const said = make("span", {}, all.length > 1 ? `${all.length} identify: ${names}` : `${names} identifies`);
    const stop = all.length > 0 && button([said, " ", make("b", {}, "Stop")], () => all.forEach(({ uid }) =>
        act("identify", { uid, on: false })), { id: "stop", title: names, disabled: !maySend() });
    const undone = last && make("span", {}, ` ${fixtures.nameOf(fixtureOf(last.uid)) || last.uid}: ${last.back}`);
    const isOwn = maySend() && parts.get("clients")?.some(({ paused, is_page: isPage }) => paused && isPage);
    const where = now?.paused && !lost && make("a", { href: addressOf("line") }, isOwn ? " Resume it in Line"
        : " Line says who paused");
    return make("header", {}, make("h1", {}, "Wurstlinen"),
        make("p", { id: "status", role: "status", class: classes(isBad && "bad") }, statusText(now), where),
        parts.size > 0 && [stop, button([make("b", {}, "Undo"), undone], () => say(`Undo: ${backText(last)}?`,
            { actions: [{ text: "Undo", act: () => undo(last) }] }), { id: "undo", title: last && backText(last),
            disabled: !mayUndo() || !last }),
        make("nav", { "aria-label": "Views" }, Object.entries(TITLES).map(([each, title]) => make("a",
            { href: addressOf(each), "aria-current": each === name ? "page" : null }, title)))]);
}

// What there is in place of a view for somebody who isn't let in.
const closed = () => (!token || lost.includes("link")) && make("article", { class: "notice" }, make("h2", {},
    "This link doesn't open the page"), make("p", {}, "What comes after the # in it is a key, which is missing or was "
    + "replaced. Ask whoever started “wurstlinen web” for the link that it has printed, and open that one."));

function messages() {
    const { isBad, actions, text, isDeaf: disabled } = message ?? {};
    return make("div", { id: "messages", role: "alert" }, message && make("div", { class: classes("message",
        isBad && "bad") }, make("p", {}, text), actions.map((each) => button(each.text, () => (close(), each.act()),
        { disabled })), button(actions.length ? "Cancel" : "Close", close)));
}

export function draw() {
    const [, asked = "fixtures", rest = ""] = location.hash.slice(1).split("/"), before = place;
    const name = views[asked] ? asked : "fixtures", uid = decodeURIComponent(rest);
    place = `${name}/${uid}`;
    if (place !== before) {
        // Who goes elsewhere leaves what was asked, and has read what was done.
        message = message?.isBad && !message.actions.length ? message : null;
        document.title = `${TITLES[name] ?? uid} · Wurstlinen`;
    }
    show(document.body, [header(name), make("main", { id: "view", key: place, class: name, tabindex: "-1" },
        TITLES[name] && make("h2", { class: "hidden" }, TITLES[name]), parts.size ? views[name].view(uid) : closed()),
    messages()]);
    if (before && place !== before) {
        document.getElementById("view").focus();
        scrollTo(0, 0);
    }
}

let frame = 0;
// A page in the background draws nothing until it is seen.
export function redraw() {
    frame ||= requestAnimationFrame(() => (frame = 0, draw()));
}

addEventListener("hashchange", () => (location.hash.slice(1).split("/")[0] === token ? draw() : location.reload()));
draw();
token && follow(redraw);
