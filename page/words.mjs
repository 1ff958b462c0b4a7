// The words of the page: what each refusal, reason, turn, rotation and shape is called, and what is wrong with a field. docs/REFUSALS.md says more of each refusal.
import { most } from './frames.mjs';

/** Of each refusal what it is, in a word, and who can put it right. The table of docs/REFUSALS.md has the same words. */
export const REFUSALS = {
  1: ['no sheet, or a spoilt one', 'the counter: open a sheet, or keep one first'],
  2: ["a sheet that we don't take", 'the counter: look at sides, stages and blade'],
  3: ["a part that we don't take", 'the customer: look at the sides'],
  4: ["the mark is another sheet's", 'the program: it mixed up two sheets'],
  5: ['the piece is gone', 'the counter: ask for the room again'],
  6: ['the piece is taken', 'the counter: choose a free piece'],
  7: ['not offered there', 'the counter: ask for offers, take one of them'],
  8: ['the sheet has too many pieces', 'the counter: use another sheet'],
  9: ["the sheet's serials are used up", 'the counter: open the sheet under a new number'],
  10: ["the whole sheet can't be removed", 'the counter: open a sheet instead'],
  11: ['there is nothing to remove', 'the counter: choose a part or a structure'],
  12: ['the list is shorter', 'the program: it asked past the end'],
  13: ['the memory lent is too short', 'the program: it has to lend more'],
  14: ['not understood', 'the program: the line is no frame'],
};

/** A word as a sentence begins with it. */
export const capital = (word) => word[0].toUpperCase() + word.slice(1);

/** A refusal in a sentence, with its number. */
export function refused(number) {
  const [word, who] = REFUSALS[number];
  return `Refused, number ${number}: ${word}. ${capital(who)}.`;
}

/** Why a free piece does not take a part in a rotation, by the reason's number (docs/RULES.md, "Request 2"). */
export const REASONS = ['turn forbidden', 'too wide', 'too tall', 'too wide and too tall', 'stages used up', 'offered'];

/** The turns of a part, and a rotation, in a customer's words. */
export const TURNS = ['may lie either way', 'as it is', 'turned'];
export const LIES = ['as it is', 'turned'];

/** 1234567 as 1,234,567. */
export const grouped = (number) => String(number).replace(/\B(?=(\d{3})+$)/g, ',');

/** A size as people write it. */
export const sized = ({ width, height }) => `${grouped(width)} x ${grouped(height)}`;

/** The figures of a sheet in two sentences: the blade where it has a width, and the eaten area where something was eaten. */
export function figured({ used, free, eaten, sheetUsage }, { layout, stages, blade }) {
  const saw = blade > 0 ? `, saw blade ${blade}` : '';
  const taken = eaten > 0 ? `, taken by the saw ${grouped(eaten)}` : '';
  return `Layout ${layout}, ${stages} stages${saw}. Used ${grouped(used)}, free ${grouped(free)}${taken}: ${(100 * sheetUsage).toFixed(1)} % is used.`;
}

/** What tidying did, by how many structures it took out. */
export function tidied(count) {
  if (count === 0) return 'The sheet is tidy: no structure was taken out.';
  return `The sheet is tidied: ${count === 1 ? '1 structure was' : `${count} structures were`} taken out.`;
}

/** A mark, as the frames' page has it. */
export const marked = ({ layout, place, serial }) => `layout ${layout}, place ${place}, serial ${serial}`;

/**
 * The number in a field that the frame has so many bytes for, or what is wrong with it: { number } or { wrong }. Whether a number is one that the calls take is for
 * the module to say.
 */
export function numberIn(text, name, bytes) {
  const typed = text.trim();
  const digits = /^\d{1,3}(,\d{3})+$/.test(typed) ? typed.replaceAll(',', '') : typed; // 1,234 is 1234, and 1,5 is no whole number
  if (digits === '') return { wrong: `${name} is missing.` };
  if (!/^\d+$/.test(digits)) return { wrong: `${name} has to be a whole number, and "${typed}" is none.` };
  if (digits.replace(/^0+/, '').length > 15 || Number(digits) > most(bytes)) return { wrong: `${name} is too large: ${grouped(most(bytes))} is the most that can be sent.` };
  return { number: Number(digits) };
}
