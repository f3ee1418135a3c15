"use strict";
// What words hold, said in words.

const ENDED_ACK = 0xffffffffffffffffn, ENDED_QUIET = 0xffffffffn, HALF = 0xffffffffn;

function hex(value) {
  return "0x" + value.toString(16);
}

function byte(value) {
  return Number(value & 0xffn).toString(16).padStart(2, "0");
}

function counted(number, word) {
  return `${number} ${word}${number === 1 || number === 1n ? "" : "s"}`;
}

// The four bytes of a tail as they stand in memory.
function tailBytes(value) {
  return [0n, 8n, 16n, 24n].map((shift) => byte(value >> shift)).join(" ");
}

function userNamed(model, number) {
  return number === 0n ? "nobody" : (model.data.users[Number(number) - 1] || ["?"])[0];
}

function instructionNumbered(value) {
  return value === 0n ? "nop" : value === 1n ? "call of the list caller" : `call of trampoline ${value - 2n}`;
}

// What a displacement of a function's site leads to.
function targetOf(model, owner, value) {
  const places = model.data.addresses, number = model.functionNumber.get(owner);
  const target = places.function + places.function_step * number + places.site_bytes + Number(value);
  if (target === places.list) return "the list caller";
  const slot = (target - places.trampoline) / places.trampoline_step;
  return Number.isInteger(slot) && slot >= 0 && slot < 64 ? `trampoline ${slot}` : null;
}

function selText(value) {
  const isRegistered = (value & 1n) === 1n, registration = value >> 32n;
  if (!isRegistered) return registration === 0n ? "not registered" : `not registered any more, registration ${registration}`;
  const copy = (value >> 2n) & 1n, isEnabled = (value & 2n) === 2n, isEmpty = (value & 8n) === 8n;
  return `registered, ${isEnabled ? "enabled" : "disabled"}, copy ${copy}${isEmpty ? ", filter empty" : ""}, registration ${registration}`;
}

function quietText(value) {
  const acts = counted(Number(value >> 32n), "act");
  return (value & HALF) === ENDED_QUIET ? `ended, ${acts}` : `${acts} finished, quiet at request ${value & HALF}`;
}

// The first names of a list, and how many more there are.
function fewNames(names, most) {
  return names.length <= most ? names.join(" ") : `${names.slice(0, most).join(" ")} and ${names.length - most} more`;
}

function bitsText(model, word, value) {
  const functions = model.data.functions.slice(64 * word.number, 64 * word.number + 64);
  const names = functions.filter((_, bit) => ((value >> BigInt(bit)) & 1n) === 1n).map(([name]) => name);
  return names.length ? fewNames(names, 6) : "no function";
}

function pidsText(model, value) {
  const traced = model.data.tasks.filter((_, task) => ((value >> BigInt(task)) & 1n) === 1n).map(([pid]) => pid);
  return traced.length === model.data.tasks.length ? "all tasks" : traced.length ? "tasks " + fewNames(traced, 8) : "no task";
}

function headText(value) {
  return byte(value) + ({ "0f": ", the nop's", e8: ", a call's", cc: ", the breakpoint" }[byte(value)] || "");
}

// What a word holds.
function said(model, word, value) {
  switch (word.kind) {
    case "clock": return `${counted(value & HALF, "item")}, ${counted((value >> 32n) / 2n, "command")} returned`;
    case "ack": return value === ENDED_ACK ? "all, it is at its end" : `request ${value}`;
    case "quiet": return quietText(value);
    case "first": case "link": return userNamed(model, value);
    case "pids": return pidsText(model, value);
    case "depth": return value === 0n ? "no limit" : String(value);
    case "head": return headText(value);
    case "tail": return tailBytes(value) + (targetOf(model, word.owner, value) ? `, to ${targetOf(model, word.owner, value)}` : "");
    case "next": return instructionNumbered(value);
    case "tramp": return value === 0n ? "nobody" : `${userNamed(model, value & HALF)}, registration ${value >> 32n}`;
    case "sel": return selText(value);
    case "bits": return bitsText(model, word, value);
    default: return String(value);
  }
}

// Whose word it is.
function ownerOf(word) {
  return word.kind === "bits" ? `${word.owner}'s ${word.half === "filter" ? "filter" : "notrace set"}, copy ${word.copy}` : word.owner;
}

// What a value looks like as a number: small numbers are decimal.
function plain(word, value) {
  const isNumber = ["want", "first", "depth", "next", "link"].includes(word.kind) || (word.kind === "ack" && value !== ENDED_ACK);
  return isNumber ? String(value) : hex(value);
}

// A step in words, without its actor.
function stepText(model, at) {
  const kind = model.data.kinds[model.steps.kind[at]], word = model.words[model.steps.word[at]];
  const value = model.values[model.steps.value[at]];
  if (model.steps.op[at] === "m") return `marks ${model.items[model.itemAt.get(at)].text}`;
  if (!kind) return `${model.steps.op[at] === "s" ? "stores" : "loads"} ${word.name}: ${said(model, word, value)}`;
  return kind[1].replace("{owner}", () => ownerOf(word)).replace("{value}", () => said(model, word, value));
}

function actorText(actor) {
  return actor === "k" ? "Control" : `CPU ${actor}`;
}

if (typeof module !== "undefined") module.exports = { said, stepText, ownerOf, plain, tailBytes, byte };
