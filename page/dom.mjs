// Small helps for the views: elements, fields and what is wrong with them.
import { numberIn } from './words.mjs';

export const find = (id) => document.getElementById(id);

/** An element with its attributes and what is in it; a listener stands under `on` and the event's name. Nothing is read as markup. */
export function element(name, attributes = {}, ...inside) {
  const made = document.createElement(name);
  for (const [key, value] of Object.entries(attributes)) {
    if (key.startsWith('on')) made.addEventListener(key.slice(2), value);
    else if (value === true) made.setAttribute(key, '');
    else if (value !== false && value !== null) made.setAttribute(key, value);
  }
  made.append(...inside);
  return made;
}

/** Puts these in the place of all that an element holds. */
export const fill = (id, ...inside) => find(id).replaceChildren(...inside);

/** The number of the chosen one of some radio buttons, or null. */
export function chosen(name) {
  const button = document.querySelector(`input[name="${name}"]:checked`);
  return button && Number(button.value);
}

/**
 * The numbers of fields, given as pairs [key, id, name, bytes]: an object of them, or null if one is no number. What is wrong is said in the element `wrongs`, where
 * there is one, and the fields are marked. What was typed stays.
 */
export function numbersOf(fields, wrongs) {
  const numbers = {};
  const words = [];
  for (const [key, id, name, bytes] of fields) {
    const { number, wrong } = numberIn(find(id).value, name, bytes);
    find(id).setAttribute('aria-invalid', wrong !== undefined);
    numbers[key] = number;
    if (wrong) words.push(wrong);
  }
  if (wrongs) find(wrongs).textContent = words.join(' ');
  return words.length === 0 ? numbers : null;
}

/** Says a word to the reader; `no` if it is a refusal or something wrong. */
export function tell(id, word, no = false) {
  find(id).textContent = word;
  find(id).classList.toggle('no', no);
}
