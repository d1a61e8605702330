// Steps, scale and choices: what buttons, keys, pointer and printer do.

const MOST_SCALE = 24;
const WIDEST = 8000000;
const MOST_PRINTED = 12;
const PRINTED_WIDTH = 1000;
const PRINTED_BYTES = 640;
const MOST_SUGGESTED = 50;

const view = document.getElementById("view");
const room = document.getElementById("room");
const svg = document.getElementById("strip");
const sentence = document.getElementById("sentence");
const detail = document.getElementById("detail");
const slider = document.getElementById("at");
const finder = document.getElementById("find");
const found = document.getElementById("found");
const byName = new Map(boundLabels().map(label => [labelName(label), label]));
const rows = new Map([...document.querySelectorAll("tr[data-pick]")].map(row => [row.dataset.pick, row]));
const layout = new Layout();
let marked;
let scale = 0;
let drawing = null;
// What is chosen until something else is, and what the pointer is over.
let chosen = null;
let hovered = null;

function fitting(width) {
    return (width - 2 * MARGIN) / LONGEST;
}

function clamped(wanted) {
    const least = fitting(view.clientWidth);
    return Math.max(least, Math.min(wanted, MOST_SCALE, WIDEST / LONGEST));
}

function draw() {
    const width = view.clientWidth;
    svg.setAttribute("width", width);
    const focused = svg.contains(document.activeElement) ? pickOf(document.activeElement) : null;
    drawing = new Drawing(svg, layout, frame(scale, view.scrollLeft, width));
    drawing.size(HEIGHT);
    choose();
    const choices = inOrder();
    const kept = choices.find(choice => choice.dataset.pick === focused);
    enterAt(kept ?? choices.find(choice => choice.classList.contains("chosen")) ?? choices[0]);
    kept?.focus({ preventScroll: true });
}

// What can be chosen in view, by where it starts.
function inOrder() {
    const placed = [...svg.querySelectorAll(".choice")].map(choice => [startOf(choice.dataset.pick), choice]);
    return placed.sort((a, b) => a[0] - b[0]).map(([, choice]) => choice);
}

// Makes a choice the one that Tab leads to.
function enterAt(choice) {
    svg.querySelector("[tabindex='0']")?.setAttribute("tabindex", -1);
    choice?.setAttribute("tabindex", 0);
}

// Leads from what has the focus in the drawing to the next or the one before, and scrolls on where that is out of view.
function moveFocus(by) {
    const isFocused = choice => choice === document.activeElement;
    let choices = inOrder(), next = choices[choices.findIndex(isFocused) + by];
    if (next === undefined) {
        view.scrollLeft += by * view.clientWidth / 2;
        draw();
        choices = inOrder();
        next = choices[choices.findIndex(isFocused) + by];
    }
    if (next === undefined) return;
    enterAt(next);
    next.focus({ preventScroll: true });
}

function choose() {
    const pick = hovered ?? chosen, belongs = pick === null ? new Set() : belonging(layout, pick);
    drawing.choose(pick, belongs);
    marked?.classList.remove("on");
    marked = rows.get(pick);
    marked?.classList.add("on");
    detail.replaceChildren(...say(layout, pick, drawing));
}

function go(step) {
    layout.go(Math.max(0, Math.min(step, STEPS.length - 1)));
    sentence.textContent = layout.current.sentence;
    slider.value = layout.step;
    slider.setAttribute("aria-valuetext", layout.current.sentence);
    svg.setAttribute("aria-label", `The code to scale, ${layout.current.sentence}`);
    const isFirst = layout.step === 0, isLast = layout.step === STEPS.length - 1;
    for (const id of ["first", "back"]) document.getElementById(id).disabled = isFirst;
    for (const id of ["forward", "last"]) document.getElementById(id).disabled = isLast;
    showChange();
    draw();
}

// Scrolls to the first jump that becomes long, if none of them is in view and nothing else is chosen.
function showChange() {
    if (chosen !== null) return;
    const grown = [...layout.current.grown];
    const places = grown.map(jump => MARGIN + layout.ends[jump] * scale - view.scrollLeft);
    if (grown.length === 0 || places.some(x => x > 0 && x < view.clientWidth)) return;
    view.scrollLeft += places[0] - view.clientWidth / 3;
}

function setScale(wanted) {
    scale = clamped(wanted);
    room.style.width = `${2 * MARGIN + LONGEST * scale}px`;
}

// Changes the scale; what stands in the middle stays there.
function rescale(wanted) {
    const middle = view.clientWidth / 2;
    const byte = (view.scrollLeft + middle - MARGIN) / scale;
    setScale(wanted);
    view.scrollLeft = MARGIN + byte * scale - middle;
    draw();
}

function pickOf(target) {
    const element = target instanceof Element ? target.closest("[data-pick]") : null;
    return element === null ? null : element.dataset.pick;
}

function hover(pick) {
    if (pick === hovered) return;
    hovered = pick;
    choose();
}

function select(pick) {
    chosen = pick === chosen ? null : pick;
    hovered = null;
    choose();
}

// Where what a pick stands for starts.
function startOf(pick) {
    if (eventOf(pick) !== null) return layout.start(eventOf(pick));
    if (fieldOf(pick) !== null) return layout.fieldStart(fieldOf(pick));
    if (pieceOf(pick) !== null) return PIECES[pieceOf(pick)].start;
    return layout.label(labelOf(pick));
}

// Scrolls the strip to what was chosen elsewhere.
function reveal(pick) {
    const x = MARGIN + startOf(pick) * scale - view.scrollLeft;
    if (x < 0 || x > view.clientWidth) view.scrollLeft += x - view.clientWidth / 2;
    draw();
}

// Names that have what is looked for in them, as many as a reader wants to see.
function suggest() {
    const names = [];
    for (const name of byName.keys()) {
        if (names.length < MOST_SUGGESTED && name.includes(finder.value)) names.push(name);
    }
    found.replaceChildren(...names.map(name => new Option(name, name)));
}

// Chooses the label whose name or number is looked for.
function findLabel() {
    const wanted = finder.value.trim(), label = byName.get(wanted) ?? byName.get(`label ${wanted}`);
    if (label !== undefined) {
        hovered = null;
        chosen = `label${label}`;
        reveal(chosen);
    } else if (wanted !== "") {
        finder.setCustomValidity(`No bound label is called ${wanted}.`);
        finder.reportValidity();
    }
}

const BUTTONS = {
    first: () => go(0),
    back: () => go(layout.step - 1),
    forward: () => go(layout.step + 1),
    last: () => go(STEPS.length - 1),
    fit: () => rescale(0),
    smaller: () => rescale(scale / 1.6),
    larger: () => rescale(scale * 1.6),
};

const KEYS = {
    ArrowLeft: BUTTONS.back,
    ArrowRight: BUTTONS.forward,
    Home: BUTTONS.first,
    End: BUTTONS.last,
    "0": BUTTONS.fit,
    "-": BUTTONS.smaller,
    "+": BUTTONS.larger,
    "=": BUTTONS.larger,
    Escape: () => select(null),
};

function press(event) {
    if (event.ctrlKey || event.altKey || event.metaKey || event.target === finder) return;
    const pick = pickOf(event.target), isButton = event.target instanceof HTMLButtonElement;
    if (isButton && (event.key === "Enter" || event.key === " ")) return;
    if (pick !== null && (event.key === "Enter" || event.key === " ")) select(pick);
    else if (svg.contains(event.target) && event.key === "ArrowDown") moveFocus(1);
    else if (svg.contains(event.target) && event.key === "ArrowUp") moveFocus(-1);
    else if (event.key in KEYS) KEYS[event.key]();
    else return;
    event.preventDefault();
}

// `#step=2&pick=event0` in the address.
function fromAddress() {
    const wanted = new URLSearchParams(location.hash.slice(1));
    const pick = wanted.get("pick");
    if (pick !== null && isKnown(pick)) chosen = pick;
    go(Number(wanted.get("step")) || 0);
    if (chosen !== null) reveal(chosen);
}

// Which steps are printed: all, or the first and the last of many.
function printedSteps() {
    const all = [...STEPS.keys()];
    if (all.length <= MOST_PRINTED) return all;
    return [...all.slice(0, MOST_PRINTED / 2), ...all.slice(-MOST_PRINTED / 2)];
}

// The part of the code that a printed step shows: all, or the surroundings of the first jump that becomes long.
function printedFrame(layout) {
    const whole = fitting(PRINTED_WIDTH);
    if (LONGEST <= PRINTED_BYTES || layout.current.grown.size === 0) return frame(whole, 0, PRINTED_WIDTH);
    const scale = (PRINTED_WIDTH - 2 * MARGIN) / PRINTED_BYTES;
    const jump = layout.current.grown.values().next().value;
    const from = Math.max(0, Math.min(layout.start(jump) - PRINTED_BYTES / 3, layout.len - PRINTED_BYTES));
    return frame(scale, from * scale, PRINTED_WIDTH);
}

function printedStep(layout, left) {
    const strip = document.createElementNS(svg.namespaceURI, "svg");
    const before = left > 0 ? [element("p", `${count(left, "step")} between are not printed.`)] : [];
    const drawing = new Drawing(strip, layout, printedFrame(layout));
    drawing.size(drawing.bottom);
    strip.setAttribute("role", "img");
    strip.setAttribute("aria-label", `The code to scale, ${layout.current.sentence}`);
    return element("figure", "", ...before, element("figcaption", layout.current.sentence), strip, ...sayStep(layout));
}

function prepareToPrint() {
    const layout = new Layout();
    let last = -1;
    const figures = printedSteps().map(step => {
        layout.go(step);
        const left = step - last - 1;
        last = step;
        return printedStep(layout, left);
    });
    document.getElementById("printed").replaceChildren(...figures);
}

// What the code has none of is left out of the legend, and what there is one step of has no buttons for steps.
function showParts() {
    const holds = new Set(FIELDS.map(field => field.holds)), hasJumps = jumps().length > 0;
    const has = {
        skipped: [...EVENTS.keys()].some(canBeSkipped),
        padding: EVENTS.some(event => !event.isJump),
        fields: FIELDS.some(({ holds }) => holds !== "join" && holds !== "linker"),
        calls: holds.has("join"),
        left: holds.has("linker"),
        constants: DATA.constants.length > 0,
        labels: byName.size > 0,
    };
    for (const [name, isThere] of Object.entries(has)) document.getElementById(`with-${name}`).hidden = !isThere;
    for (const element of document.querySelectorAll(".with-jumps")) element.hidden = !hasJumps;
    for (const element of document.querySelectorAll(".with-rounds")) element.hidden = IS_JOINED || !hasJumps;
    for (const element of document.querySelectorAll(".with-steps")) element.hidden = IS_JOINED;
}

// A row of the table can be chosen by keyboard, too.
function makeButton(row) {
    const cell = row.lastElementChild, button = element("button", cell.textContent);
    button.type = "button";
    cell.replaceChildren(button);
}

function start() {
    document.getElementById("rounds").hidden = false;
    showParts();
    for (const row of rows.values()) makeButton(row);
    for (const [id, action] of Object.entries(BUTTONS)) document.getElementById(id).addEventListener("click", action);
    slider.max = STEPS.length - 1;
    slider.addEventListener("input", () => go(Number(slider.value)));
    finder.addEventListener("input", () => {
        finder.setCustomValidity("");
        suggest();
    });
    finder.addEventListener("focus", suggest);
    finder.addEventListener("change", findLabel);
    document.addEventListener("keydown", press);
    document.addEventListener("click", event => {
        const pick = pickOf(event.target);
        if (pick === null) return;
        const isInPanel = detail.contains(event.target);
        select(pick);
        if (isInPanel) detail.focus();
        if (event.target.closest("tr") !== null && chosen !== null) reveal(pick);
    });
    document.addEventListener("pointerover", event => {
        if (event.pointerType === "mouse") hover(detail.contains(event.target) ? null : pickOf(event.target));
    });
    svg.addEventListener("focusin", event => hover(pickOf(event.target)));
    svg.addEventListener("focusout", () => hover(null));
    let isDue = false;
    view.addEventListener("scroll", () => {
        if (isDue) return;
        isDue = true;
        requestAnimationFrame(() => {
            isDue = false;
            draw();
        });
    });
    window.addEventListener("resize", () => rescale(scale));
    window.addEventListener("hashchange", fromAddress);
    window.addEventListener("beforeprint", prepareToPrint);
    // Where the whole would be too narrow to tell jumps apart, a byte begins with a pixel.
    setScale(1);
    svg.setAttribute("height", HEIGHT);
    fromAddress();
}

start();
