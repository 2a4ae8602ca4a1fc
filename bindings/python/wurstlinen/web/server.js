// What the page's program shows, and what it is asked to do.

const LATE = 12_000, AGAIN = 1_000, ABSENT = "the program of this page doesn't answer";

// The address has it behind the #, which browsers send to nobody.
export const token = location.hash.slice(1).split("/")[0];
const headers = { Authorization: `Bearer ${token}` };
// The parts that the program shows, by their names; and why these are old, if they are.
export const parts = new Map();
export let lost = "connecting";
export const partsOf = (prefix) => [...parts].filter(([name]) => name.startsWith(prefix)).map(([, value]) => value);
export const fixtureOf = (uid) => parts.get(`fixture/${uid}`);
export const mayUse = () => parts.get("role") === "uses" && !lost;
export const maySend = () => mayUse() && Boolean(parts.get("line")?.there);

export async function call(name, keys = {}) {
    try {
        const answer = await fetch(`/api/${name}`, { method: "POST", headers, body: JSON.stringify(keys) });
        return answer.ok ? await answer.json() : { error: await answer.text() };
    } catch {
        return { error: "The program of this page doesn't answer, so it isn't known whether that was done." };
    }
}

function take(text) {
    const found = JSON.parse(text.slice("data: ".length));
    // With the role come all parts that there are.
    found.role && parts.clear();
    Object.entries(found).forEach(([name, value]) => (value === null ? parts.delete(name) : parts.set(name, value)));
    lost = "";
}

const inTime = (work) => Promise.race([work, new Promise((_, fail) => setTimeout(fail, LATE, new Error(ABSENT)))]);

async function listen(changed) {
    const ending = new AbortController();
    try {
        const answer = await inTime(fetch("/api/events", { headers, signal: ending.signal }));
        if (!answer.ok) {
            throw new Error(await answer.text());
        }
        const reader = answer.body.pipeThrough(new TextDecoderStream()).getReader();
        for (let left = ""; ;) {
            const { value, done } = await inTime(reader.read());
            if (done) {
                throw new Error("the connection was closed");
            }
            const events = (left + value).split("\n\n");
            left = events.pop();
            events.forEach(take);
            changed();
        }
    } finally {
        ending.abort();
    }
}

// Calls `changed` whenever what the program shows has changed.
export async function follow(changed) {
    for (;;) {
        await listen(changed).catch((fault) => (lost = fault.name === "Error" ? fault.message : ABSENT));
        changed();
        await new Promise((done) => setTimeout(done, AGAIN));
    }
}
