// The strip of one step, drawn to scale.

const MARGIN = 30;
const STRIP = 36;
const LETTER = 6.6;
const WITH_FIELDS = new Set(FIELDS.map(field => field.before));
const NAME_ROWS = 3;
const MOST_NAMES = 60;
const MOST_ARCS = 3000;
const COARSEST = 16;
const ROW = 15;
const ABOVE = jumps().some(isAhead) || labelFields().some(isFieldAhead) ? 150 : 8;
const BELOW = jumps().some(jump => !isAhead(jump)) || labelFields().some(field => !isFieldAhead(field)) ? 110 : 0;
const PIECE_ROW = IS_JOINED ? 18 : 0;
const TOP = 12 + PIECE_ROW + ABOVE;
const BOTTOM = TOP + STRIP;
const BACK = BOTTOM + 36;
const NAMES = BACK + BELOW + 16;
const HEIGHT = NAMES + NAME_ROWS * ROW;

// A part of the strip: pixels of a byte, the first pixel in view, and how many are.
function frame(scale, left, width) {
    const x = byte => MARGIN + byte * scale - left;
    return { scale, left, width, x, shows: (from, to) => to >= -40 && from <= width + 40 };
}

// Draws what a frame shows. Every element that can be chosen says by data-pick what it stands for.
class Drawing {
    constructor(svg, layout, frame) {
        this.svg = svg;
        this.layout = layout;
        this.frame = frame;
        this.seen = new Set();
        this.bottom = NAMES;
        svg.replaceChildren();
        this.spans = IS_JOINED ? PIECES : [{ start: 0, end: layout.len, first: 0, next: EVENTS.length }];
        this.grain = this.arcGrain();
        this.ground();
        this.pieces();
        this.runs();
        this.fields();
        this.constants();
        this.labels();
        this.axis();
        this.events();
        this.badges();
        this.overlay = this.add("g", { class: "overlay" });
    }

    // How high the drawing is must be said once it stands; on the screen it is the same in all steps.
    size(height) {
        this.svg.setAttribute("viewBox", `0 0 ${this.frame.width} ${height}`);
    }

    add(name, attributes, parent = this.svg, text = null) {
        const element = document.createElementNS(this.svg.namespaceURI, name);
        for (const [key, value] of Object.entries(attributes)) element.setAttribute(key, value);
        if (text !== null) element.textContent = text;
        parent.append(element);
        return element;
    }

    // A group that can be chosen by pointer and by keyboard.
    choice(pick, kind, name) {
        return this.add("g", { class: `choice ${kind}`, "data-pick": pick, tabindex: -1, role: "button", "aria-label": name });
    }

    // Whether nothing like this was drawn at the same pixels: where bytes are narrow, what falls together is drawn once.
    isNew(...key) {
        const text = key.join(" ");
        const isNew = !this.seen.has(text);
        this.seen.add(text);
        return isNew;
    }

    // How many pixels arcs must be apart to be drawn both: one, and more where there are very many.
    arcGrain() {
        const { x, shows } = this.frame;
        const isInView = (from, label) => {
            const to = x(this.layout.label(label));
            return shows(Math.min(from, to), Math.max(from, to));
        };
        const arcs = jumps().filter(jump => isInView(x(this.layout.ends[jump]), EVENTS[jump].label)).length
            + labelFields().filter(field => isInView(x(this.layout.fieldStart(field)), FIELDS[field].label)).length;
        return Math.min(Math.ceil(Math.max(arcs, 1) / MOST_ARCS), COARSEST);
    }

    // Whether no such arc was drawn near these pixels.
    isNewArc(kind, from, to) {
        return this.isNew("arc", kind, Math.round(from / this.grain), Math.round(to / this.grain));
    }

    ground() {
        const { x, width } = this.frame;
        for (const { start, end } of this.spans) {
            const from = Math.max(x(start), -10), to = Math.min(x(end), width + 10);
            if (to > from) this.add("rect", { class: "block run", x: from, y: TOP, width: to - from, height: STRIP });
        }
    }

    // A bracket over each piece of joined code, with its name.
    pieces() {
        const { x, shows, width } = this.frame;
        PIECES.forEach(({ start, end }, index) => {
            if (!shows(x(start), x(end)) || !this.isNew("piece", Math.round(x(start)), Math.round(x(end)))) return;
            const group = this.choice(`piece${index}`, "piece", pieceText(index));
            this.add("path", { class: "bracket", d: `M${x(start)} ${TOP}V${PIECE_ROW}H${x(end)}V${TOP}` }, group);
            this.add("path", { class: "hit", d: `M${x(start)} ${PIECE_ROW - 6}H${x(end)}` }, group);
            const left = Math.max(x(start), 0), room = Math.min(x(end), width) - left;
            const name = [pieceText(index), `piece ${index}`, `${index}`].find(text => text.length * LETTER + 6 < room);
            if (name !== undefined) this.add("text", { class: "piece-name", x: left + 3, y: PIECE_ROW - 5 }, group, name);
        });
    }

    // How long the runs between events are, but for those that have fields and for constants.
    runs() {
        for (const { start, end, first, next } of this.spans) {
            let from = start;
            for (let event = first; event <= next; event++) {
                const to = event < next ? this.layout.start(event) : end;
                const isConstant = event > first && POOLED.has(event - 1);
                if (!WITH_FIELDS.has(event) && !isConstant) this.inside(from, to, count(to - from, "byte"), "quiet");
                from = this.layout.ends[event];
            }
        }
    }

    // Text in the middle of what is in view of some bytes, if it has room.
    inside(from, to, text, kind, parent = this.svg) {
        const { x, width } = this.frame;
        const left = Math.max(x(from), 0), right = Math.min(x(to), width);
        if (right - left < text.length * LETTER + 6) return;
        this.add("text", { class: `inside ${kind}`, x: (left + right) / 2, y: TOP + STRIP / 2 + 4 }, parent, text);
    }

    axis() {
        const { x, scale, width, left } = this.frame;
        let step = 1;
        while (step * scale < 64) step *= 2;
        const first = Math.max(0, Math.floor((left - MARGIN - 40) / scale / step)) * step;
        for (let byte = first; byte <= this.layout.len && x(byte) < width + 40; byte += step) {
            this.add("path", { class: "axis", d: `M${x(byte)} ${BOTTOM}v4` });
            this.add("text", { class: "axis", x: x(byte), y: BOTTOM + 29 }, this.svg, offset(byte));
        }
    }

    block(kind, from, to, parent) {
        const { x } = this.frame;
        const wide = x(to) - x(from), width = wide > 5 ? wide - 1 : Math.max(wide, 1);
        this.add("rect", { class: `block ${kind}`, x: x(from), y: TOP, width, height: STRIP }, parent);
    }

    fields() {
        for (const field of FIELDS.keys()) this.field(field);
    }

    field(index) {
        const { x, shows } = this.frame, { size, label, holds } = FIELDS[index];
        const start = this.layout.fieldStart(index), from = x(start + size / 2);
        const to = label < 0 ? from : x(this.layout.label(label));
        if (!shows(Math.min(x(start), to), Math.max(x(start + size), to))) return;
        const kind = { join: "joined", linker: "left" }[holds] ?? "filled";
        const isNewArc = label >= 0 && this.isNewArc(kind, from, to);
        if (!this.isNew(kind, Math.round(from)) && !isNewArc) return;
        const group = this.choice(`field${index}`, `field ${kind}`, fieldText(this.layout, index));
        this.block(`field ${kind}`, start, start + size, group);
        this.inside(start, start + size, targetName(index), "strong", group);
        if (isNewArc) this.arc(index, kind, isFieldAhead(index), from, to, group);
    }

    constants() {
        for (const [before, number, , size] of DATA.constants) {
            const from = this.layout.at(before, 0), { x, shows } = this.frame;
            if (!shows(x(from), x(from + size)) || !this.isNew("constant", Math.round(x(from)))) continue;
            this.block("constant", from, from + size, this.svg);
            this.inside(from, from + size, `constant ${number}`, "reversed");
        }
    }

    labels() {
        const { x } = this.frame;
        this.together = this.labelsInView();
        // Where there are too many to name, one row names some of them.
        const isCrowded = this.together.length > MOST_NAMES;
        const rows = Array(isCrowded ? 1 : NAME_ROWS).fill(-Infinity), room = isCrowded ? 30 : 5;
        for (const labels of this.together) {
            const at = this.layout.label(labels[0]), name = namesOf(labels);
            const half = name.length * LETTER / 2 + room;
            const row = rows.findIndex(end => end < x(at) - half);
            if (row >= 0) rows[row] = x(at) + half;
            this.label(labels, at, name, row);
        }
    }

    // The labels in view by rising offset, those together that fall on one pixel.
    labelsInView() {
        const { x, shows } = this.frame, together = new Map();
        const placed = boundLabels().map(label => [this.layout.label(label), label]).filter(([at]) => shows(x(at), x(at)));
        for (const [at, label] of placed.sort((a, b) => a[0] - b[0])) {
            const pixel = Math.round(x(at));
            if (!together.has(pixel)) together.set(pixel, []);
            together.get(pixel).push(label);
        }
        return [...together.values()];
    }

    // The further labels that are drawn with one.
    beside(label) {
        const labels = this.together.find(labels => labels.includes(label)) ?? [];
        return labels.filter(other => other !== label);
    }

    // The tick of some labels, with their names if it has a row.
    label(labels, at, name, row) {
        const { x } = this.frame, y = NAMES + row * ROW, bottom = row < 0 ? BOTTOM + 8 : y - 11;
        const further = labels.length > 1 ? ` and ${count(labels.length - 1, "further label")}` : "";
        const group = this.choice(`label${labels[0]}`, "label", `${labelText(labels[0])} at ${offset(at)}${further}`);
        group.picks = labels.map(label => `label${label}`);
        this.add("path", { class: "tick", d: `M${x(at)} ${TOP - 4}V${bottom}` }, group);
        this.add("path", { class: "hit", d: `M${x(at)} ${TOP}V${bottom}` }, group);
        this.push(labels[0], at, group);
        if (row < 0) return;
        this.add("text", { class: "name", x: x(at), y }, group, name);
        this.bottom = Math.max(this.bottom, y + 6);
    }

    // An arrow from where a label stood in the round before.
    push(label, at, group) {
        const { x, scale } = this.frame, by = this.layout.pushed(label);
        if (this.layout.step < 2 || Math.abs(by) * scale < 6) return;
        const from = x(at - by), tip = by > 0 ? -5 : 5;
        this.add("path", { class: "ghost", d: `M${from} ${TOP}V${BOTTOM}` }, group);
        this.add("path", { class: "push", d: `M${from} ${BOTTOM - 7}H${x(at)}m${tip} -4l${-tip} 4l${tip} 4` }, group);
    }

    events() {
        EVENTS.forEach((event, index) => event.isJump ? this.jump(index) : this.padding(index));
    }

    padding(index) {
        const { x, shows } = this.frame, start = this.layout.start(index), end = this.layout.ends[index];
        const skipped = isSkipped(this.layout.padding(index)) ? "skipped " : "";
        const kind = `${skipped}${this.layout.changed(index) ? "padding changed" : "padding"}`;
        if (!shows(x(start), x(end)) || !this.isNew(kind, Math.round(x(start)), Math.round(x(end)))) return;
        const group = this.choice(`event${index}`, "event", `${eventText(index)}, ${paddingText(this.layout.padding(index))}`);
        if (start === end) {
            this.add("path", { class: `empty ${kind}`, d: `M${x(start) - 4} ${TOP - 1}h8l-4 7z` }, group);
            return;
        }
        this.block(kind, start, end, group);
        this.inside(start, end, `${end - start}`, "plain", group);
    }

    jump(index) {
        const { x, shows } = this.frame, state = this.layout.state(index);
        const start = this.layout.start(index), end = this.layout.ends[index], target = this.layout.label(EVENTS[index].label);
        const from = x(end), to = x(target);
        if (!shows(Math.min(x(start), from, to), Math.max(from, to))) return;
        const isNewArc = this.isNewArc(state, from, to);
        if (!this.isNew(state, Math.round(from)) && !isNewArc) return;
        const group = this.choice(`event${index}`, `event ${state}`, `${eventText(index)}, ${stateText(state)}, to ${labelText(EVENTS[index].label)}`);
        this.block(`jump ${state}`, start, end, group);
        this.inside(start, end, EVENTS[index].what, "strong", group);
        if (!isNewArc) return;
        this.arc(index, state, isAhead(index), from, to, group);
        const edge = isAhead(index) ? TOP - 13 : BOTTOM + 1;
        if (state === "grown") this.add("path", { class: "mark", d: `M${from} ${edge}l5 6l-5 6l-5 -6z` }, group);
    }

    // An arc from a jump or field to its label, with a head where there is room for one.
    arc(index, kind, isAhead, from, to, group) {
        const path = isAhead ? arcAbove(index, from, to) : arcBelow(index, from, to);
        this.add("path", { class: `arc ${kind}`, d: path }, group);
        this.add("path", { class: "hit", d: path }, group);
        if (this.frame.scale < 0.5) return;
        this.add("path", { class: `head ${kind}`, d: isAhead ? `M${to} ${TOP}l-4 -7h8z` : `M${to} ${BOTTOM}l-4 7h8z` }, group);
    }

    // By how much events are longer or shorter than in the step before.
    badges() {
        const { x, shows } = this.frame;
        let last = -Infinity;
        for (const [event, by] of [...this.layout.current.changes].sort((a, b) => a[0] - b[0])) {
            const middle = (x(this.layout.start(event)) + x(this.layout.ends[event])) / 2;
            const text = by > 0 ? `+${by}` : `\u2212${-by}`, half = text.length * LETTER / 2 + 2;
            if (!shows(middle, middle) || middle - half < last) continue;
            last = middle + half;
            this.add("text", { class: "badge", x: middle, y: BOTTOM + 14 }, this.svg, text);
        }
    }

    // Shows what is chosen: what belongs to it stands out, and the reach of a short jump lies over the strip.
    choose(pick, belongs) {
        this.svg.classList.toggle("choosing", pick !== null);
        for (const element of this.svg.querySelectorAll(".choice")) {
            const picks = element.picks ?? [element.dataset.pick];
            element.classList.toggle("on", picks.some(pick => belongs.has(pick)));
            element.classList.toggle("chosen", picks.includes(pick));
        }
        this.overlay.replaceChildren();
        const event = eventOf(pick);
        if (event === null || !EVENTS[event].isJump) return;
        if (["short", "grown"].includes(this.layout.state(event))) this.reach(this.layout.ends[event]);
    }

    reach(end) {
        const { x, width } = this.frame;
        const from = x(end + FARTHEST_BACK), to = x(end + FARTHEST_AHEAD);
        const left = Math.max(from, -10), right = Math.min(to, width + 10);
        this.add("rect", { class: "reach", x: left, y: TOP - 3, width: Math.max(right - left, 0), height: STRIP + 6 }, this.overlay);
        this.add("path", { class: "reach-end", d: `M${from} ${TOP - 6}V${BOTTOM + 17}M${to} ${TOP - 6}V${BOTTOM + 17}` }, this.overlay);
        this.add("text", { class: "reach-text back", x: to - 4, y: BOTTOM + 16 }, this.overlay, `reach ends: ${FARTHEST_AHEAD}`);
        this.add("text", { class: "reach-text", x: from + 4, y: BOTTOM + 16 }, this.overlay, `reach ends: \u2212${-FARTHEST_BACK}`);
    }
}

// Farther arcs are higher, up to what there is room for. Neighbours differ a little, so that one does not hide the other.
function rise(index, from, to, room) {
    const far = 1 - Math.exp(-Math.abs(to - from) / (1.5 * room));
    return 14 + (room - 14) * far * (1 - 0.09 * (index % 4));
}

function arcAbove(index, from, to) {
    const top = TOP - rise(index, from, to, ABOVE) * 4 / 3;
    return `M${from} ${TOP}C${from} ${top} ${to} ${top} ${to} ${TOP}`;
}

function arcBelow(index, from, to) {
    const bottom = BACK + rise(index, from, to, BELOW) * 4 / 3;
    return `M${from} ${BOTTOM}V${BACK}C${from} ${bottom} ${to} ${bottom} ${to} ${BACK}V${BOTTOM}`;
}
