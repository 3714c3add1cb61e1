// The dialogs: a request, a fuse, a disk with its regions, examples, a new group, a number to be surprised by, the address, the keys.
"use strict";

function openDialog(title, ...inside) {
    byId("dialog-title").textContent = title;
    byId("dialog-body").replaceChildren(...inside);
    if (!byId("dialog").open) byId("dialog").showModal();
    byId("dialog-body").scrollTop = 0;
    (byId("dialog-body").querySelector("[autofocus]") || byId("dialog-close")).focus();
}

const closeDialog = () => byId("dialog").close();

function field(name, input) {
    return make("label", {}, name, input);
}

function choiceOf(name, options, chosen) {
    return make("select", { name }, ...options.map(([value, text]) => make("option", { value, selected: value === chosen }, text)));
}

// A form whose line is shown while it's filled in, and played by its button.
function lineForm(inside, lineOf, buttonName) {
    const line = make("code", { class: "line", id: "form-line" });
    const why = make("p", { id: "form-why", role: "alert" });
    const go = make("button", { class: "main", id: "form-go" }, buttonName);
    const form = make("form", {}, ...inside, make("p", { class: "note" }, "The line that this is:"), line, why, go);
    const refresh = () => {
        line.textContent = lineOf(form.elements);
        why.textContent = whyRefused(line.textContent, game.lines.slice(0, game.at + 1));
        go.disabled = why.textContent !== "";
    };
    form.addEventListener("input", refresh);
    form.addEventListener("submit", (event) => {
        event.preventDefault();
        refresh();
        if (go.disabled) return;
        closeDialog();
        play(line.textContent);
    });
    refresh();
    return form;
}

function requestForm(index) {
    const client = make("input", { name: "client", value: lastClient(), inputmode: "numeric", size: "8" });
    const number = make("input", { name: "number", inputmode: "numeric", size: "6" });
    const key = make("input", { name: "key", value: "color", size: "12" });
    const value = make("input", { name: "value", value: "green", size: "12" });
    const operation = choiceOf("operation", [["register", "register: begin a session"], ["put", "put a value"], ["get", "get a value"], ["del", "delete a key"]], "put");
    const settle = () => {
        number.value = String(nextNumber(game.outputs.slice(0, game.at + 1), client.value));
        operation.value = number.value === "0" ? "register" : operation.value === "register" ? "put" : operation.value;
    };
    settle();
    client.addEventListener("input", settle);
    operation.addEventListener("input", () => { if (operation.value === "register") number.value = "0"; else if (number.value === "0") number.value = "1"; });
    const inside = [make("p", { class: "note" }, "A client first registers with number 0, then numbers its requests 1, 2, 3. Each is executed once, however often it is asked."),
        make("div", { class: "fields" }, field("client", client), field("number", number), field("what", operation), field("key", key), field("value", value))];
    const lineOf = (of) => `request ${index} ${of.client.value} ${of.number.value} ${{ register: "register", put: `put ${of.key.value} ${of.value.value}`, get: `get ${of.key.value}`, del: `del ${of.key.value}` }[of.operation.value]}`;
    openDialog(`Ask replica ${index}`, lineForm(inside, lineOf, "Ask"));
    byId("form-go").focus();
}

const lastClient = () => game.lines.slice(0, game.at + 1).findLast((line) => line.startsWith("request "))?.split(" ")[2] || "7";

function fuseForm(index) {
    const call = make("input", { name: "call", value: "3", inputmode: "numeric", size: "7" });
    const left = choiceOf("left", [["2", "damaged"], ["0", "as they were"], ["1", "as they were written"], ["", "by a code of your own"]], "2");
    const code = make("input", { name: "code", value: codeOf(2), inputmode: "numeric", size: "21" });
    left.addEventListener("input", () => { if (left.value !== "") code.value = codeOf(left.value); });
    code.addEventListener("input", () => { left.value = ""; });
    const each = PREPARES[versionOfFile(index)].each;
    const inside = [
        make("p", { class: "note" }, `Replica ${index} stops at a call of its disk, in the midst of what it does. A new operation takes ${each} writes (its prepare), a sync, a write (its header), a sync: so call 3 is in the midst of the prepare, and call ${each + 2} is the header. A new view, or a start, writes its superblock: some 84 calls.`),
        make("div", { class: "fields" }, field("at write or sync number", call), field("sectors not yet synced are left", left), field("code", code)),
        make("details", {}, make("summary", {}, "what the code is"), make("p", { class: "note" }, "Its digits in base 3, the lowest first, are for the sectors that were written and not synced, in the order of their first write: 0 as it was, 1 as written, 2 damaged.")),
    ];
    openDialog(`Light a fuse at replica ${index}`, lineForm(inside, (of) => `fuse ${index} ${of.call.value} ${of.code.value}`, "Light it"));
    call.focus();
}

// The version of a member's file as far as lines may name its sectors.
const versionOfFile = (index) => (game.group.version === 2 || game.watch.migrated.has(index) ? 2 : 1);

// ---- the disk

const disk = { index: 0, fault: "damage", first: null };

function faultLine(sector) {
    if (disk.fault !== "misdirect") return `${disk.fault} ${disk.index} ${sector}`;
    return disk.first === null ? null : `misdirect ${disk.index} ${disk.first} ${sector}`;
}

async function onPlace(place, element) {
    const within = Math.min(Number(byId("within").value) || 0, place.count - 1);
    const line = faultLine(place.first + within);
    if (line === null) {
        disk.first = place.first + within;
        element.classList.add("first");
        byId("answer").textContent = `The last write to sector ${disk.first} went astray. Where to? Pick the place.`;
        return;
    }
    disk.first = null;
    for (const one of document.querySelectorAll(".places .first")) one.classList.remove("first");
    await play(line);
    const said = game.refusal || game.outputs[game.at]?.at(-1) || "";
    byId("answer").textContent = `${line}: ${said === "kept out" ? "kept out. It would break what is asked of the disks (below), so nothing changed." : said}`;
    if (said === "done") element.classList.add("done");
}

function placeButton(region, place, replica) {
    const op = place.slot === undefined ? null : opOfSlot(replica, place.slot);
    const name = region.kind === "copies" ? place.name : op === null ? place.name : `op ${op}`;
    const of = region.kind === "slots" ? `slot ${place.slot}${op === null ? "" : `, operation ${op}`}` : region.kind === "blocks" ? `block ${place.name}` : place.name;
    const last = place.first + place.count - 1;
    const title = `${of}: sector${place.count === 1 ? ` ${place.first}` : `s ${place.first} to ${last}`}`;
    const element = button(name, () => onPlace(place, element), { title, class: op === null ? "" : "used", "data-sector": place.first });
    element.disabled = last >= SECTORS[game.group.version];
    return element;
}

function diskForm(index) {
    Object.assign(disk, { index, first: null });
    const replica = view.world.replicas[index];
    const faults = Object.entries(FAULTS).map(([name, text]) => make("label", { class: "beside" }, make("input", { type: "radio", name: "fault", value: name, checked: name === disk.fault }), text));
    const regions = regionsOf(versionOfFile(index)).map((region) => {
        const places = make("div", { class: `places ${region.kind}` }, ...region.places.map((place) => placeButton(region, place, replica)));
        const text = `${region.name} (${region.places.length} of ${region.places[0].count} sector${region.places[0].count === 1 ? "" : "s"})`;
        return make("details", { open: region.kind !== "blocks" || replica.most >= CHECKPOINT_EVERY }, make("summary", {}, text), places);
    });
    const within = make("input", { id: "within", value: "0", inputmode: "numeric", size: "3" });
    const body = make("div", {}, make("p", { class: "note" }, `The file of replica ${index}, from its front to its end. A click on a place is the fault. An operation stands in two places of its slot: its header, and its prepare.`),
        make("fieldset", {}, make("legend", {}, "A sector reads"), ...faults), make("div", { class: "fields" }, field("which sector of the place, from 0", within)), make("p", { id: "answer", role: "status" }), ...regions,
        make("p", { class: "note" }, "What is asked of the disks: the superblock still opens as the same value, and while a slot holds an operation, an older header isn't shown in its place with the prepare gone. A fault that would break this is kept out."));
    body.addEventListener("input", (event) => {
        if (event.target.name !== "fault") return;
        Object.assign(disk, { fault: event.target.value, first: null });
    });
    openDialog(`The disk of replica ${index}`, body);
}

function openForm(form, index) {
    ({ request: requestForm, fuse: fuseForm, disk: diskForm })[form](index);
}

// ---- schedules

function openExamples() {
    const items = [];
    let section = "";
    for (const example of data.examples) {
        if (example.section !== section) items.push(make("h3", {}, example.section));
        section = example.section;
        const choice = make("button", { type: "button", class: "choice", "data-example": example.name }, make("b", {}, example.name), make("span", {}, example.says));
        choice.addEventListener("click", () => { closeDialog(); loadExample(example); });
        items.push(choice);
    }
    openDialog("Examples", make("p", { class: "note" }, "Each is a schedule that the repository explains and checks. It opens at the line that it is about; the arrow keys step through it, and you may go on from any line."), ...items);
}

function loadExample({ name, says, text }) {
    stopGuides();
    return change({ ...readSchedule(text), lost: new Set(), title: name, about: says });
}

function openNew() {
    const size = choiceOf("size", [1, 2, 3, 4, 5, 6].map((n) => [String(n), `${n} replica${n === 1 ? "" : "s"}: ${QUORUMS[n].replication} commit`]), "3");
    const careful = make("input", { type: "checkbox", name: "careful" });
    const version = make("input", { type: "checkbox", name: "v2" });
    const inside = [make("div", { class: "fields" }, field("how many", size)),
        make("label", { class: "beside" }, careful, "careful files: they bear more faults, and deny less"),
        make("label", { class: "beside" }, version, "files of version 2: longer values, more sessions; a group may have one replica")];
    const form = make("form", {}, ...inside, make("code", { class: "line", id: "form-line" }), make("p", { id: "form-why" }), make("button", { class: "main", id: "form-go" }, "Begin"));
    const refresh = () => {
        const line = `cluster ${size.value}${careful.checked ? " careful" : ""}${version.checked ? " v2" : ""}`;
        byId("form-line").textContent = line;
        byId("form-why").textContent = whyNoGroup(line);
        byId("form-go").disabled = whyNoGroup(line) !== "";
    };
    form.addEventListener("input", refresh);
    form.addEventListener("submit", (event) => {
        event.preventDefault();
        stopGuides();
        closeDialog();
        change({ lines: [byId("form-line").textContent], notes: new Map(), lost: new Set(), title: "", about: "" });
    });
    openDialog("A new group", form);
    refresh();
}

async function openShare() {
    const hash = await addressOf(game);
    history.replaceState(null, "", `#${hash}`);
    const text = make("input", { value: location.href, readonly: true, style: "width:100%", "aria-label": "address" });
    const copy = button("Copy", async () => {
        text.select();
        await navigator.clipboard.writeText(text.value).catch(() => document.execCommand("copy"));
        copy.textContent = "Copied";
    }, { class: "main" });
    openDialog("Share", make("p", {}, `The address of this page holds the schedule: ${game.lines.length} lines in ${hash.length} letters. Whoever opens this page with it sees what you see.`), text, make("p", {}, copy));
}

function saveFile() {
    const link = make("a", { href: URL.createObjectURL(new Blob([`${game.lines.join("\n")}\n`], { type: "text/plain" })), download: "schedule.txt" });
    link.click();
    setTimeout(() => URL.revokeObjectURL(link.href), 1000);
}

async function loadFile(file) {
    const said = readSchedule(await file.text());
    stopGuides();
    await change({ ...said, lost: new Set(), title: file.name, about: "" });
}

const KEYS_TEXT = [
    ["space", "deliver the first message under way"], ["1 to 9 with shift", "deliver that message under way, counted from the top"], ["0 to 5", "pick a replica; then:"], ["t, s, r", "tick it; stop or start it; ask it (a request)"],
    ["d, f, m", "its disk; a fuse; migrate its file, where it is stopped"], ["x, a", "tick all that run; deliver all"], ["u, y", "undo, redo"], ["← →, Home, End", "step through the lines"], ["/", "type a line"], ["Esc", "close what is open"],
];

function openHelp() {
    const rows = KEYS_TEXT.map(([keys, text]) => make("tr", {}, make("td", {}, make("code", {}, keys)), make("td", {}, text)));
    const marks = [
        "Time goes down. A lane is thick where its replica leads, thin where it follows, dashed while it changes the view, dotted while it is stopped.",
        "An arrow is a message: unbroken for prepares, acknowledgements and commit numbers, dashed for changes of view, dotted for repair. One that moves is under way: its end is a button.",
        "Marks on a lane: ● a message or a request comes, ○ a tick, ✕ it stops, ▲ it starts, ⚡ its disk begins to lie, ⊟ a fuse is lit. Words: ✓ applied, ◆ a log is chosen, ◇ the choice waits.",
        "Below the lanes stands what every mark means.",
        `Letters of a log: ${Object.entries(LETTER_WORDS).map(([letter, words]) => `${letter} ${words}`).join("; ")}.`,
    ];
    openDialog("Keys, and how to read it", make("table", { class: "keys-table" }, ...rows), make("h3", {}, "The picture"), make("ul", {}, ...marks.map((mark) => make("li", {}, mark))));
}
