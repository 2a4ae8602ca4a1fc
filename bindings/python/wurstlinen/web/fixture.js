// One fixture: on a phone it fills the screen. What `show` shows, and what can be set.
import { act, addressOf, busily, busy, redraw, say } from "/app.js";
import { alarm } from "/discovery.js";
import { button, classes, make } from "/dom.js";
import { DETAIL, SENDING, changeOf, editor, identifier, nameOf, notesOf, ordered, remarksOf, send, slotsText, valueOf,
    walk } from "/fixtures.js";
import { fixtureOf, maySend, mayUse, parts } from "/server.js";

// The fixture that was asked for all by this page.
let asked = "";

// Goes to a fixture beside this one, which shows itself if this one did, unless somebody goes elsewhere or types.
async function go(uid, by) {
    const all = ordered().map((found) => found.uid), here = location.hash;
    const next = fixtureOf(uid)?.identifies && maySend() ? await walk(uid, by) : all[all.indexOf(uid) + by];
    const isHere = location.hash === here && !document.activeElement.isTyped;
    location.hash = next && isHere ? addressOf("fixture", next) : location.hash;
}

function fieldOf({ name, unit, hint, choices, value }) {
    return make("label", {}, `${[name, unit].filter(Boolean).join(", ")} `, choices.length
        ? make("select", { shown: value }, choices.map((each) => make("option", {}, each)))
        : make("input", { shown: value, autocomplete: "off", spellcheck: "false" }),
    make("small", {}, hint));
}

// A form for a parameter. What it does at once is a question first.
function formOf(uid, { parameter, about, acts, fields }) {
    const title = parameter.replaceAll("_", " ");
    const press = ({ target }) => {
        const inputs = [...target.parentElement.querySelectorAll("input, select")];
        const values = inputs.map((each) => each.value);
        const words = fields.flatMap((each, at) => (each.is_list ? values[at].split(" ").filter(Boolean) : values[at]));
        const set = async () => {
            const isSet = await act("set", { uid, parameter, words }, `${title} was set, and the fixture read again.`);
            // What was refused stays, and so does what was typed meanwhile.
            inputs.forEach((each, at) => (each.isTyped &&= !isSet || each.value !== values[at]));
            redraw();
        };
        return acts ? say(`Really do it: ${title}?`, { actions: [{ text: "Do it", act: set }] }) : set();
    };
    return make("details", { class: "form" }, make("summary", {}, `Change ${title}`), make("p", {}, about),
        fields.map(fieldOf), button(acts ? `Do it: ${title}` : "Set", press, { disabled: !maySend() }));
}

// A section stays, with what somebody types in its forms, whatever its values are. Some titles come again.
function sectionOf(uid, name, all, forms) {
    // Its switch says whether it identifies now.
    const rows = all.map(([title, text]) => [title.replaceAll("_", " "), text])
        .filter(([title]) => title !== "identify device");
    return rows.length > 0 && make("section", { key: name }, make("h3", {}, name), make("dl", {},
        rows.map(([title, text], at) => make("div", { key: rows.findIndex(([each]) => each === title) === at ? title
            : at }, make("dt", {}, title === "slots" ? "at slots" : title), make("dd", {}, text || (mayUse()
            && forms[title] ? "" : "can't be shown here"), mayUse() && forms[title] && formOf(uid, forms[title]))))));
}

const readAll = (uid) => busily(`${asked = uid}/show`, () => act("show", { uid }));
const nudge = ({ uid, address, missing }, text, by, where) => button(text, () => send(uid, "address",
    String(Number(valueOf(uid, "address")) + by)), { class: "nudge", "aria-label": `Address one ${where}`,
    disabled: !maySend() || !address || Boolean(missing) });

export function view(uid) {
    const found = fixtureOf(uid), { sections = {}, forms = {}, is_over: isOver } = parts.get(`details/${uid}`) ?? {};
    const back = make("a", { class: "back", href: addressOf("fixtures") }, "‹ All fixtures");
    if (!found) {
        return [make("article", {}, back, make("h2", { class: "name" }, uid), make("p", { class: "notes" },
            "It isn't among the fixtures."), alarm())];
    }
    maySend() && asked !== uid && !isOver && readAll(uid);
    const isReading = busy.has(`${uid}/show`) || isOver === false, notes = notesOf(found);
    const field = (text, column) => make("label", { class: "field" }, make("span", {}, text), editor(found, column));
    const about = [found.manufacturer, found.model, uid, found.first && slotsText(found)].filter(Boolean);
    const steps = [["‹ Previous", -1], [found.identifies && maySend() ? "Identify next ›" : "Next ›", 1]]
        .map(([text, by]) => button(text, () => go(uid, by), { class: "main" }));
    const short = ([title, text]) => `${title.replace(/^\d+ /, "")} ${text.split(" (")[0]}`.trim();
    const measured = (sections.sensors ?? []).map(short).join(" · ");
    const isOld = measured && (found.missing || found.is_gone) ? "Before it was missing: " : "";
    return [make("article", {}, back, make("h2", { class: "name" }, nameOf(found)),
        make("p", { class: "whole" }, about.join(" · ")),
        make("p", { class: classes("notes", notes.length && "bad") }, [...notes, ...remarksOf(found)].join("; ")
            .replace(DETAIL, "")),
        found.missing && alarm(), identifier(found, "big"),
        make("div", { class: "tools steps" }, steps), field("Label", "label"),
        make("div", { class: "place" }, field("Address", "address"), nudge(found, "−", -1, "lower"),
            nudge(found, "+", 1, "higher")),
        field("Personality", "personality"), changeOf(found), make("p", { class: "sending" }, mayUse() && SENDING),
        make("p", { class: "sensors" }, isOld + measured || (parts.get("role") !== "looks" || sections.identity ? ""
            : "Sensors and all else are shown once a page that isn't view only opens it.")),
        mayUse() && button(isReading ? "Reading …" : "Read all again", () => readAll(uid),
            { disabled: isReading || !maySend() || Boolean(found.missing) }),
        make("div", { class: "sections", "aria-busy": String(isReading) },
            Object.entries(sections).map(([title, rows]) => sectionOf(uid, title, rows, forms))))];
}
