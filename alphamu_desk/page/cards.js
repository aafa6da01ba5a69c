// Cards, seats and numbers as the page shows them, and how it writes them without taking anything away.
export const $ = id => document.getElementById(id);
export const SUIT = {S: ['♠', 's', 'spades'], H: ['♥', 'h', 'hearts'], D: ['♦', 'd', 'diamonds'], C: ['♣', 'c', 'clubs']};
export const SEAT = {N: 'North', E: 'East', S: 'South', W: 'West'}, RING = 'NESW', RANKS = '23456789TJQKA';
const RANK = {A: 'ace', K: 'king', Q: 'queen', J: 'jack', T: '10'};

export const esc = text => String(text).replace(/[&<>"']/g, it => `&#${it.charCodeAt(0)};`);
export const ten = rank => rank === 'T' ? '10' : rank;
export const pip = suit => `<i class="${SUIT[suit][1]}" aria-hidden="true">${SUIT[suit][0]}\uFE0E</i>`;
export const said = card => `${RANK[card[1]] || card[1]} of ${SUIT[card[0]][2]}`;
export const card = it => `<span class="k">${pip(it[0])}<span aria-hidden="true">${ten(it[1])}</span><span class="vh">${said(it)}</span></span>`;
export const inText = text => esc(text).replace(/\b([SHDC])([2-9TJQKA])\b/g, (_, suit, rank) => card(suit + rank));
export const inSymbols = text => esc(text).replace(/[♠♥♦♣]/g, it => pip('SHDC'['♠♥♦♣'.indexOf(it)])).replace(/(<\/i>)T\b/g, '$110');
export const num = it => it.toLocaleString('en').replace(/,/g, '\u202F');
export const span = (from, to) => from === to ? `${from}` : `${from}–${to}`;
const high = (one, two) => RANKS.indexOf(two[1]) - RANKS.indexOf(one[1]);
export const sorted = list => [...list].sort((one, two) => 'SHDC'.indexOf(one[0]) - 'SHDC'.indexOf(two[0]) || high(one, two));

// Equal cards of one suit, the highest first.
export function cards(group) {
  const held = sorted(group);
  if (held.length === 1) return card(held[0]);
  return `<span class="k">${pip(held[0][0])}<span aria-hidden="true">${held.map(it => ten(it[1])).join(' ')}</span><span class="vh">${held.map(said).join(' or ')}</span></span>`;
}

// The same as words of a sentence.
export function either(group) {
  const held = sorted(group), ranks = held.map(it => ten(it[1]));
  if (held.length === 1) return card(held[0]);
  return `<span class="k">${pip(held[0][0])}<span aria-hidden="true">${ranks.slice(0, -1).join(', ')} or ${ranks[ranks.length - 1]}</span><span class="vh">${held.map(said).join(' or ')}</span></span>`;
}

export const contract = it => `${esc(it[0])}${it[1] === 'N' ? '<span class="nt">NT</span>' : pip(it[1])}${it.slice(2).replace(/X/g, '×')}`;
export const score = (result, goal) => result === null ? '' : result === goal ? 'made' : (result > goal ? '+' : '−') + Math.abs(result - goal);

// Widths go in by script: the content policy allows no style in the markup.
export function size() {
  for (const it of document.querySelectorAll('[data-w],[data-l],[data-h]')) {
    for (const [name, property] of [['w', 'width'], ['l', 'left'], ['h', 'height']]) {
      if (it.dataset[name]) it.style[property] = it.dataset[name];
    }
  }
}

// Writes `html` into `element` and keeps each element that stays what it is: a round that comes in takes no focus, no click
// under way and no opened step, and the bars grow from where they were.
export function put(element, html) {
  const made = document.createElement('template');
  made.innerHTML = html;
  morph(element, made.content);
}

function morph(element, wanted) {
  [...wanted.childNodes].forEach((to, at) => {
    const from = element.childNodes[at];
    if (!from) element.append(to.cloneNode(true));
    else if (from.nodeType !== to.nodeType || from.nodeName !== to.nodeName) from.replaceWith(to.cloneNode(true));
    else if (to.nodeType === 3) { if (from.data !== to.data) from.data = to.data; }
    else {
      for (const it of [...from.attributes]) if (!to.hasAttribute(it.name) && it.name !== 'style' && it.name !== 'open') from.removeAttribute(it.name);
      for (const it of to.attributes) if (it.name !== 'open' && from.getAttribute(it.name) !== it.value) from.setAttribute(it.name, it.value);
      morph(from, to);
    }
  });
  while (element.childNodes.length > wanted.childNodes.length) element.lastChild.remove();
}
