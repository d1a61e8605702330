// What is said of a step, an event, a label or a field, in the words of --rounds.

const MOST_SAID = 12;
const MOST_LETTERS = 24;
const PAGE = 4096;

function count(number, noun) {
    return `${number} ${noun}${number === 1 ? "" : "s"}`;
}

function offset(byte) {
    return DATA.hex ? `0x${byte.toString(16).toUpperCase()}` : `${byte}`;
}

function labelText(label) {
    return `label ${DATA.labels[label][2] ?? label}`;
}

// As it stands at its tick: the name alone, if it has one.
function labelName(label) {
    return DATA.labels[label][2] ?? labelText(label);
}

// `a, b +3`, as some labels stand at one tick.
function namesOf(labels) {
    let text = labelName(labels[0]), named = 1;
    while (named < labels.length && text.length + labelName(labels[named]).length < MOST_LETTERS) text += `, ${labelName(labels[named++])}`;
    return named < labels.length ? `${text} +${labels.length - named}` : text;
}

// `jmp recorded at 5 (line 11)`, or `jmp at 5 (line 11)` of joined code.
function eventText(event) {
    const { what, start, place } = EVENTS[event];
    if (POOLED.has(event)) return what;
    return `${what} ${IS_JOINED ? "at" : "recorded at"} ${offset(start)}${place ? ` (${place})` : ""}`;
}

// As it stands in a field: the name of its symbol or label alone.
function targetName(field) {
    const { label, symbol } = FIELDS[field];
    return symbol === undefined ? labelName(label) : symbol.replace("symbol ", "");
}

// `piece 1: callee.txt`.
function pieceText(piece) {
    return `piece ${piece}: ${PIECES[piece].name}`;
}

function stateText(state) {
    return { recorded: "not yet sized", short: "short", grown: "out of reach in this round", long: "long" }[state];
}

// What a pick stands for: the index of an event, a label, a field or a piece, or null if it stands for none.
function eventOf(pick) {
    return pick !== null && pick.startsWith("event") ? Number(pick.slice(5)) : null;
}

function labelOf(pick) {
    return pick !== null && pick.startsWith("label") ? Number(pick.slice(5)) : null;
}

function fieldOf(pick) {
    return pick !== null && pick.startsWith("field") ? Number(pick.slice(5)) : null;
}

function pieceOf(pick) {
    return pick !== null && pick.startsWith("piece") ? Number(pick.slice(5)) : null;
}

function isKnown(pick) {
    return eventOf(pick) in EVENTS || fieldOf(pick) in FIELDS || pieceOf(pick) in PIECES || Boolean(DATA.labels[labelOf(pick)]);
}

function element(name, text, ...children) {
    const made = document.createElement(name);
    if (text) made.textContent = text;
    made.append(...children);
    return made;
}

// A list of some items, of many the first ones, each worded as text or as parts of an entry.
function list(items, noun, worded) {
    const shown = items.length > MOST_SAID + 1 ? items.slice(0, MOST_SAID) : items;
    const entries = shown.map(item => element("li", "", ...[worded(item)].flat()));
    if (shown.length < items.length) entries.push(element("li", `\u2026 ${count(items.length - shown.length, `more ${noun}`)}`));
    return element("ul", "", ...entries);
}

// `label 0 at 132 less its own end at 2 is 130`.
function reckoning(layout, jump) {
    const { label } = EVENTS[jump];
    return `${labelText(label)} at ${offset(layout.label(label))} less its own end at ${offset(layout.ends[jump])} is ${layout.distance(jump)}`;
}

function verdict(layout, jump) {
    const sentence = reckoning(layout, jump), range = `${FARTHEST_BACK}..${FARTHEST_AHEAD}`;
    switch (layout.state(jump)) {
        case "recorded":
            return `${count(layout.lengths[jump], "byte")} recorded. The rounds begin with 2 bytes and make it long if it does not reach.`;
        case "short":
            return `${sentence}, within ${range}: it is short, 2 bytes.`;
        case "grown":
            return `${sentence}, outside ${range}: it becomes long.`;
        default:
            return `${sentence}; it is long, ${count(layout.lengths[jump], "byte")}${since(jump)}, and reaches every label.`;
    }
}

function since(jump) {
    const { lengthened } = EVENTS[jump];
    if (IS_JOINED) return "";
    return lengthened > 0 ? `, since round ${lengthened} found it out of reach` : ", since a round that this page leaves out";
}

// The changes of an event up to a step, but for those between the recording and round 1.
function changesUpTo(event, step) {
    const { number = Infinity } = STEPS[step];
    return step === 0 ? [] : EVENTS[event].changes.filter(change => change.round <= number);
}

// `jmp recorded at 5 (line 11) grew by 3`.
function causeText({ event, by }) {
    return `${eventText(event)} ${by < 0 ? "shrank" : "grew"} by ${Math.abs(by)}`;
}

// `jmp recorded at 5 (line 11) grew by 3 after round 1`.
function changeText(change) {
    const { round, left } = change;
    const when = left > 0 ? `in rounds ${round - left - 1} to ${round}` : `after round ${round - 1}`;
    return `${causeText(change)} ${when}`;
}

function stepText(step) {
    const { number } = STEPS[step];
    return number === undefined ? "as recorded" : `in round ${number}`;
}

// `Its start moved from 18 in round 1 to 22 in round 2, since`, and what changed in front.
function moveText({ step, from, to, causes }) {
    const head = `Its start moved from ${offset(from)} ${stepText(step - 1)} to ${offset(to)} ${stepText(step)}, since`;
    return [element("p", head), list(causes, "change", causeText)];
}

// What moved the start of an alignment, and so changed what it needs.
function movedText(layout, event) {
    const all = moves(event, layout.step);
    if (all.length === 0) return layout.step === 0 ? [] : [element("p", "Nothing in front of it has moved it.")];
    const latest = all.length > MOST_SAID + 1 ? all.slice(-MOST_SAID) : all;
    const earlier = all.length > latest.length ? [element("p", `\u2026 ${count(all.length - latest.length, "earlier move")}`)] : [];
    return [...earlier, ...latest.flatMap(moveText)];
}

// Why the distance of a jump is not what it was in round 1.
function history(layout, jump) {
    const [from, to] = crossed(jump), changes = [];
    for (let event = from; event < to; event++) changes.push(...changesUpTo(event, layout.step));
    if (changes.length === 0) return [];
    const grown = changes.reduce((sum, change) => sum + change.by, 0);
    const own = changesUpTo(jump, layout.step).reduce((sum, change) => sum + change.by, 0);
    const first = isAhead(jump) ? layout.distance(jump) - grown : layout.distance(jump) + grown + own;
    const head = `${first} in round 1; since then, between the jump and its label,`;
    return [element("p", head), list(changes, "change", changeText)];
}

function crossedText(jump) {
    const [from, to] = crossed(jump);
    const among = EVENTS.slice(from, to).filter(event => event.isJump).length;
    const alignments = to - from - among;
    if (to === from) return "It crosses no jump and no alignment.";
    return `It crosses ${count(among, "jump")} and ${count(alignments, "alignment")}, marked above.`;
}

function crossedBy(event) {
    return jumps().filter(jump => crosses(jump, event));
}

function crossedByText(event) {
    const by = crossedBy(event);
    if (by.length === 0) return "No jump crosses it.";
    const names = by.slice(0, MOST_SAID).map(eventText).join(", ");
    const more = by.length > MOST_SAID ? ` and ${by.length - MOST_SAID} more` : "";
    return `Crossed by ${names}${more}; what it grows by is added to their distance.`;
}

function sayJump(layout, jump) {
    const title = `${eventText(jump)}, to ${labelText(EVENTS[jump].label)}`;
    return [
        element("h2", title), element("p", verdict(layout, jump)), ...history(layout, jump),
        element("p", crossedText(jump)), element("p", crossedByText(jump)),
    ];
}

// `3 bytes of padding`, or `skipped, 7 needed`.
function paddingText(padding) {
    const { spent, needed } = padding;
    if (isSkipped(padding)) return `skipped, ${needed} needed`;
    return spent === 0 ? "no padding" : `${count(spent, "byte")} of padding`;
}

// `align 8 3 recorded at 9 (line 6): 2 bytes of padding; in round 1: skipped, 5 needed`, and what moved it since the step before.
function turnText(layout, event) {
    const before = STEPS[layout.step - 1]?.number;
    const then = before === undefined ? "" : `; in round ${before}: ${paddingText(layout.paddingBefore(event))}`;
    const moved = moves(event, layout.step).filter(move => move.step === layout.step).flatMap(moveText);
    return [`${eventText(event)}: ${paddingText(layout.padding(event))}${then}`, ...moved];
}

function sayPadding(layout, event) {
    const start = layout.start(event), end = layout.ends[event], padding = layout.padding(event);
    const first = layout.step > 1 && DATA.of > 1 ? `${DATA.first[event]} in round 1, ` : "";
    const spends = isSkipped(padding)
        ? `skipped at ${offset(start)}: ${padding.needed} needed, at most ${EVENTS[event].most}`
        : `${paddingText(padding)}, from ${offset(start)} to ${offset(end)}`;
    const now = IS_JOINED ? `${spends}.` : `${spends}; ${first}${EVENTS[event].length} recorded.`;
    return [element("h2", eventText(event)), element("p", now), ...movedText(layout, event), element("p", crossedByText(event))];
}

// What a field holds of a target.
function holdsText(holds, start, target) {
    switch (holds) {
        case "pages":
            return `distance ${count(Math.floor(target / PAGE) - Math.floor(start / PAGE), "page")}`;
        case "low bits":
            return `low 12 bits ${offset((target % PAGE + PAGE) % PAGE)}`;
        case "join":
            return `filled with ${target - start}`;
        case "linker":
            return "left for the linker";
        default:
            return `distance ${target - start - holds}`;
    }
}

// `A64Branch19 at 8: label 2 at 16, distance 8`.
function fieldText(layout, field) {
    const { name, holds, label, addend, symbol } = FIELDS[field], start = layout.fieldStart(field);
    const names = symbol === undefined ? [] : [symbol];
    if (label >= 0) names.push(`${labelText(label)} at ${offset(layout.label(label))}`);
    if (addend !== 0) names.push(`addend ${addend}`);
    const target = label >= 0 ? layout.label(label) + addend : addend;
    return `${name} at ${offset(start)}: ${names.join(", ")}, ${holdsText(holds, start, target)}`;
}

function sayField(layout, field) {
    const { name, size, holds } = FIELDS[field];
    const by = { join: "The join filled it.", linker: "The system linker fills it." }[holds] ?? "Finish fills it where the code comes to stand.";
    return [element("h2", `${name}, ${count(size, "byte")}`), element("p", `${fieldText(layout, field)}.`), element("p", by)];
}

// The pooled constant that a label is made for, if it is made for one.
function sayConstant(label) {
    const own = DATA.constants.filter(([, , of]) => of === label);
    return own.map(([, number, , size]) => element("p", `Constant ${number} stands here, ${count(size, "byte")}.`));
}

// The labels that one is drawn with, to be chosen in its place.
function sayBeside(layout, labels) {
    if (labels.length === 0) return [];
    const entry = label => {
        const button = element("button", `${labelText(label)} at ${offset(layout.label(label))}`);
        button.type = "button";
        button.dataset.pick = `label${label}`;
        return button;
    };
    return [element("p", "Further labels at this tick:"), list(labels, "label", entry)];
}

function sayLabel(layout, label, beside) {
    const from = jumps().filter(jump => EVENTS[jump].label === label);
    const push = layout.pushed(label), pushed = layout.step > 1 && push !== 0 ? `, pushed by ${push} since the step before` : "";
    const title = `${labelText(label)} at ${offset(layout.label(label))}${pushed}`;
    const entry = jump => `${eventText(jump)}: distance ${layout.distance(jump)}, ${stateText(layout.state(jump))}`;
    const by = from.length === 0
        ? [element("p", "No jump goes to it.")]
        : [element("p", `${count(from.length, "jump")} to it:`), list(from, "jump", entry)];
    const fields = labelFields().filter(field => FIELDS[field].label === label);
    const named = fields.length === 0 ? [] : [element("p", `Named by ${count(fields.length, "field")}:`), list(fields, "field", field => fieldText(layout, field))];
    return [element("h2", title), ...sayConstant(label), ...by, ...named, ...sayBeside(layout, beside)];
}

// The fields in a piece that the join filled.
function callsIn(layout, piece) {
    const { start, end } = PIECES[piece];
    const isIn = field => FIELDS[field].holds === "join" && layout.fieldStart(field) >= start && layout.fieldStart(field) < end;
    return [...FIELDS.keys()].filter(isIn);
}

function sayPiece(layout, piece) {
    const { start, end, record } = PIECES[piece], calls = callsIn(layout, piece);
    const filled = calls.length === 0 ? [] : [element("p", "The join filled"), list(calls, "field", field => fieldText(layout, field))];
    return [element("h2", pieceText(piece)), element("p", `From ${offset(start)} to ${offset(end)}; ${record}.`), ...filled];
}

// What happens in a step, in general.
function lesson(layout) {
    if (IS_JOINED) return "Each piece was finished alone. The join set it behind the one before, and filled calls of symbols that a piece defines.";
    if (layout.step === 0) {
        if (DATA.of === 0) return "Nothing moves: finish fills fields where they stand, and sets constants behind the code.";
        return "Each jump has room for its longest form. Round 1 takes every jump for short and makes all padding anew.";
    }
    if (layout.step === STEPS.length - 1) return DATA.of === 0 ? "Finished where it was recorded." : "Finished as the last round placed it.";
    if (layout.current.grown.size === 0) return "Every short jump reaches its label, so this placing stands.";
    return "A jump that does not reach is made long from the next round on. That pushes what stands behind it, and may push a label out of another jump's reach.";
}

// What a round found, where nothing is chosen.
function sayStep(layout) {
    const { grown, left } = layout.current;
    const said = left > 0 ? [element("p", `${count(left, "round")} before this one are left out of this page; their changes are added up.`)] : [];
    const turns = layout.turns();
    if (turns.length > 0) said.push(list(turns, "alignment", event => turnText(layout, event)));
    const reason = jump => [`${eventText(jump)}: ${verdict(layout, jump)}`, ...history(layout, jump)];
    if (grown.size > 0) said.push(list([...grown], "jump", reason));
    return said;
}

function say(layout, pick, drawing) {
    const event = eventOf(pick), label = labelOf(pick);
    if (label !== null) return sayLabel(layout, label, drawing.beside(label));
    if (fieldOf(pick) !== null) return sayField(layout, fieldOf(pick));
    if (pieceOf(pick) !== null) return sayPiece(layout, pieceOf(pick));
    if (event === null) return [element("p", lesson(layout)), ...sayStep(layout)];
    return EVENTS[event].isJump ? sayJump(layout, event) : sayPadding(layout, event);
}

// What stands out with a choice: of a jump what it crosses and its label, of padding the jumps that cross it and what moved it, of a label
// the jumps to it and the fields that name it, of a field its label, of a piece its events and the calls in it.
function belonging(layout, pick) {
    const event = eventOf(pick), label = labelOf(pick), field = fieldOf(pick), piece = pieceOf(pick), picks = new Set([pick]);
    if (label !== null) {
        for (const jump of jumps()) if (EVENTS[jump].label === label) picks.add(`event${jump}`);
        for (const field of labelFields()) if (FIELDS[field].label === label) picks.add(`field${field}`);
    } else if (field !== null) {
        picks.add(`label${FIELDS[field].label}`);
    } else if (piece !== null) {
        for (let event = PIECES[piece].first; event < PIECES[piece].next; event++) picks.add(`event${event}`);
        for (const field of callsIn(layout, piece)) picks.add(`field${field}`).add(`label${FIELDS[field].label}`);
    } else if (event !== null && EVENTS[event].isJump) {
        const [from, to] = crossed(event);
        for (let other = from; other < to; other++) picks.add(`event${other}`);
        picks.add(`label${EVENTS[event].label}`);
    } else if (event !== null) {
        for (const jump of crossedBy(event)) picks.add(`event${jump}`);
        const last = moves(event, layout.step).at(-1);
        if (last?.step === layout.step) for (const cause of last.causes) picks.add(`event${cause.event}`);
    }
    return picks;
}
