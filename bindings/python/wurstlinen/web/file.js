// A saved file: what differs from it, and what makes the fixtures as it says.
import { act, asked, say } from "/app.js";
import { button, classes, make, plural } from "/dom.js";
import { DETAIL, differencesOf, linked, named } from "/fixtures.js";
import { maySend, mayUse, parts } from "/server.js";

async function save() {
    const answer = await asked("save");
    if (answer) {
        const href = URL.createObjectURL(new Blob([answer.text], { type: "text/csv" }));
        Object.assign(document.createElement("a"), { href, download: parts.get("file")?.name ?? "rig.csv" }).click();
        URL.revokeObjectURL(href);
    }
}

async function load({ target }) {
    for (const file of target.files) {
        await act("load", { name: file.name, text: await file.text() });
    }
    target.value = "";
}

async function look() {
    const plan = await asked("apply", { dry: true });
    if (plan && !plan.changes.length) {
        say("The fixtures that are here are as the file says.");
    } else if (plan) {
        const isBad = plan.problems.length > 0, count = plural(plan.changes.length, "change");
        const absent = parts.get("file")?.differences.filter(({ kind }) => kind === "missing").length;
        const actions = [{ text: `Make ${count}${isBad ? " anyway" : ""}`, act: () => act("apply", { force: isBad },
            `${count} made, and read back.`) }];
        const changes = plan.changes.map(({ uid, text }) => `${named(uid)}: ${text}`);
        say([`${count}:`, ...changes, isBad ? `But ${plan.problems.join("; ")}.` : "They make no slots overlap.",
            plan.solved.length ? `They end this: ${plan.solved.join("; ")}.` : "",
            absent ? `${plural(absent, "missing fixture")} of the file: not changed.` : ""].filter(Boolean).join("\n"),
        { isBad, actions });
    }
}

function differences(file) {
    const { name, rows, note, differences: found } = file;
    return [make("p", {}, `${name} has ${plural(rows, "fixture")}; ${found.length ? differencesOf(file)
        + (found.some(({ kind }) => kind === "overlap") ? ", not in the file: Apply says which it ends." : ":")
        : "nothing differs."}`), make("p", {}, note),
    make("ul", { class: "differences" }, found.map(({ kind, uid, text }) => make("li", { class: classes(
        ["missing", "overlap", "end"].includes(kind) && "bad") }, make("b", {},
        kind === "new" ? "not in the file: " : `${kind}: `), linked(uid), `, ${text.replace(DETAIL, "")}`)))];
}

export function view() {
    const file = parts.get("file"), disabled = !mayUse();
    return [make("div", { class: "tools" }, button("Save fixtures as CSV", save, { disabled }),
        button(`Compare with ${file ? "another" : "a saved"} file …`, ({ target }) => target.nextSibling.click(),
            { disabled }),
        make("input", { type: "file", accept: ".csv,.txt,.tsv,text/csv", id: "chooser", hidden: true, onchange: load }),
        file && button(`Apply ${file.name} …`, look, { disabled: !maySend() }),
        file && button("Close the file", () => act("unload", {}), { disabled })), ...(file ? differences(file)
        : [make("p", {}, `A saved file shows what is missing or differs${disabled ? "" : ", and can be applied"}.`)])];
}
