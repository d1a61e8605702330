"use strict";

// What the page shows, and where everything stands in each step. All numbers come from the program that wrote the page; this only adds them up, and
// counts how far a skipped alignment is from its multiple.
//
// hex        whether offsets are hexadecimal
// recorded   the sentence of the first step, the only one of joined code
// finished   the sentence of the last step
// len        bytes recorded, with the pool, or joined
// events     [what, start, length, label or -1, where it comes from], those of the pool last; of an alignment multiple and most follow
// labels     [events before it, bytes behind them, name], or 0 if it is not bound
// constants  [events before it, number, label, size], each behind an alignment of its own
// kinds      [name, size, what the field holds: how many bytes behind its start distances count from, "pages", "low bits", "join" or "linker"]
// fields     [events before it, bytes behind them, kind, label or -1, addend, symbol]
// first      the length of each event in round 1
// rounds     [number, sentence, [event, by how much longer than in the entry before, ..], [event that becomes long, ..]]
// of         how many rounds there were
// pieces     [start, end, the first event in it or behind it, name, what finish reports], of joined code; of other code there are none
const DATA = JSON.parse(document.getElementById("data").textContent);

const SHORT = 2;
const FARTHEST_BACK = -128;
const FARTHEST_AHEAD = 127;

const PIECES = DATA.pieces.map(([start, end, first, name, record], index) => ({
    start, end, first, name, record,
    next: DATA.pieces[index + 1]?.[2] ?? DATA.events.length,
}));
const IS_JOINED = PIECES.length > 0;

const EVENTS = DATA.events.map(([what, start, length, label, place, multiple, most], index) => ({
    what, start, length, label, place, multiple, most,
    // What its alignment counts from.
    base: 0,
    isJump: label >= 0,
    gap: start - (index > 0 ? DATA.events[index - 1][1] + DATA.events[index - 1][2] : 0),
    changes: [],
    lengthened: 0,
}));
PIECES.forEach(({ start, first, next }, piece) => {
    for (const event of EVENTS.slice(first, next)) {
        event.base = start;
        event.place = [`piece ${piece}`, event.place].filter(Boolean).join(", ");
    }
});
const POOLED = new Set(DATA.constants.map(([before]) => before - 1));
const FIELDS = DATA.fields.map(([before, past, kind, label, addend, symbol]) => {
    const [name, size, holds] = DATA.kinds[kind];
    return { before, past, name, size, holds, label, addend, symbol };
});
const TAIL = EVENTS.reduce((rest, event) => rest - event.gap - event.length, DATA.len);
const STEPS = steps();
const LONGEST = longest();

// As recorded, every round, finished; of joined code the whole alone. A step's changes lead to it from the step before, by rising events.
function steps() {
    const all = [{ sentence: DATA.recorded, changes: new Map(), grown: new Set(), left: 0 }];
    if (IS_JOINED) return all;
    let last = 0;
    for (const [number, sentence, flat, grown] of DATA.rounds) {
        const changes = last === 0 ? fromRecorded() : pairs(flat);
        const left = number - last - 1;
        all.push({ number, sentence: `round ${number} of ${DATA.of}: ${sentence}`, changes, grown: new Set(grown), left });
        for (const event of grown) EVENTS[event].lengthened = number;
        if (last > 0) for (const [event, by] of changes) EVENTS[event].changes.push({ event, by, round: number, left });
        last = number;
    }
    all.push({ sentence: DATA.finished, changes: new Map(), grown: new Set(), left: 0 });
    return all;
}

function fromRecorded() {
    const changes = EVENTS.map((event, index) => [index, DATA.first[index] - event.length]);
    return new Map(changes.filter(([, by]) => by !== 0));
}

function pairs(flat) {
    const map = new Map();
    for (let i = 0; i < flat.length; i += 2) map.set(flat[i], flat[i + 1]);
    return map;
}

// The most bytes of any step, so that all steps have one scale.
function longest() {
    let len = DATA.len, most = DATA.len;
    for (const step of STEPS) {
        for (const by of step.changes.values()) len += by;
        most = Math.max(most, len);
    }
    return Math.max(most, 1);
}

// Where everything stands in one step.
class Layout {
    constructor() {
        this.step = 0;
        this.lengths = EVENTS.map(event => event.length);
        this.place();
    }

    go(step) {
        for (; this.step < step; this.step++) this.add(STEPS[this.step + 1].changes, 1);
        for (; this.step > step; this.step--) this.add(STEPS[this.step].changes, -1);
        this.place();
    }

    add(changes, sign) {
        for (const [event, by] of changes) this.lengths[event] += sign * by;
    }

    place() {
        let end = 0, endBefore = 0;
        this.ends = EVENTS.map((event, index) => end += event.gap + this.lengths[index]);
        this.endsBefore = EVENTS.map((event, index) => endBefore += event.gap + this.lengths[index] - this.changed(index));
        this.len = end + TAIL;
    }

    get current() {
        return STEPS[this.step];
    }

    at(before, past) {
        return (before > 0 ? this.ends[before - 1] : 0) + past;
    }

    start(event) {
        return this.ends[event] - this.lengths[event];
    }

    label(label) {
        const [before, past] = DATA.labels[label];
        return this.at(before, past);
    }

    fieldStart(field) {
        const { before, past } = FIELDS[field];
        return this.at(before, past);
    }

    // By how much a label was pushed since the step before.
    pushed(label) {
        const [before] = DATA.labels[label];
        return before > 0 ? this.ends[before - 1] - this.endsBefore[before - 1] : 0;
    }

    // What a displacement counts: the label's offset less the jump's own end.
    distance(jump) {
        return this.label(EVENTS[jump].label) - this.ends[jump];
    }

    // By how much an event is longer than in the step before.
    changed(event) {
        return this.current.changes.get(event) || 0;
    }

    // What an alignment spends and what it needs to reach its multiple.
    padding(event) {
        return paddingAt(event, this.ends[event], this.lengths[event]);
    }

    // The same in the step before.
    paddingBefore(event) {
        return paddingAt(event, this.endsBefore[event], this.lengths[event] - this.changed(event));
    }

    // The alignments that are skipped here and were not in the step before, or the reverse; in the first two steps those that are skipped.
    turns() {
        const isTurn = event => isSkipped(this.padding(event)) !== (this.step > 1 && isSkipped(this.paddingBefore(event)));
        return [...EVENTS.keys()].filter(event => canBeSkipped(event) && isTurn(event));
    }

    state(jump) {
        if (this.step === 0 && !IS_JOINED) return "recorded";
        if (this.current.grown.has(jump)) return "grown";
        return this.lengths[jump] > SHORT ? "long" : "short";
    }
}

function paddingAt(event, end, spent) {
    const { base, multiple } = EVENTS[event], past = (end - spent - base) % multiple;
    return { spent, needed: past === 0 ? 0 : multiple - past };
}

function isSkipped({ spent, needed }) {
    return spent < needed;
}

function canBeSkipped(event) {
    const { isJump, multiple, most } = EVENTS[event];
    return !isJump && most < multiple - 1;
}

// Each step up to one in which an event starts elsewhere than in the step before, from where to where, and what changed in front of it. What stands in
// front of a place that did not move has no part in that.
function moves(event, upTo) {
    const all = [];
    let { start } = EVENTS[event];
    for (let step = 1; step <= upTo; step++) {
        const causes = [];
        let by = 0;
        for (const [other, change] of STEPS[step].changes) {
            if (other >= event) break;
            by += change;
            causes.push({ event: other, by: change });
            if (by === 0) causes.length = 0;
        }
        if (by !== 0) all.push({ step, from: start, to: start + by, causes });
        start += by;
    }
    return all;
}

// The events between a jump and its label: from the first up to, without it, the second.
function crossed(jump) {
    const before = DATA.labels[EVENTS[jump].label][0];
    return before > jump ? [jump + 1, before] : [before, jump];
}

function crosses(jump, event) {
    const [from, to] = crossed(jump);
    return from <= event && event < to;
}

function isAhead(jump) {
    return DATA.labels[EVENTS[jump].label][0] > jump;
}

// Whether a field's label stands behind it.
function isFieldAhead(field) {
    const { before, past, label } = FIELDS[field], [labelBefore, labelPast] = DATA.labels[label];
    return labelBefore === before ? labelPast > past : labelBefore > before;
}

function boundLabels() {
    return [...DATA.labels.keys()].filter(label => DATA.labels[label] !== 0);
}

// The fields that name a label.
function labelFields() {
    return [...FIELDS.keys()].filter(field => FIELDS[field].label >= 0);
}

function jumps() {
    return [...EVENTS.keys()].filter(event => EVENTS[event].isJump);
}
