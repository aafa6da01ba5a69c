// The layouts: how many are drawn, with which conditions, what each draw said, and the hands of each.
import {$, SEAT, SUIT, card, esc, num, pip, put, sorted, span, ten} from './cards.js';
import {S, tallyKey} from './moment.js';

const NAMES = {N: 'north', E: 'east', S: 'south', W: 'west'};
const line = hand => [...'SHDC'].map(suit => `${pip(suit)}<span class="vh">${SUIT[suit][2]} </span>${sorted(hand.filter(it => it[0] === suit)).map(it => ten(it[1])).join('') || '–'}`).join('');

// What each card was said to make, over all draws of this question.
function tally() {
  const draws = Object.values(S.tally[tallyKey()] || {}), told = {};
  if (draws.length < 2) return '';
  for (const round of draws) {
    for (const held of round.groups) {
      const it = round.cards.find(it => it.card === held[0]), name = sorted(held)[0], isNamed = held.includes(round.named);
      const sum = told[name] = told[name] || {named: 0, least: 256, most: 0};
      Object.assign(sum, {named: sum.named + isNamed, least: Math.min(sum.least, it.least), most: Math.max(sum.most, it.most)});
    }
  }
  const order = Object.entries(told).sort((one, two) => two[1].named - one[1].named || two[1].most - one[1].most).slice(0, 6);
  return `<h3>${draws.length} draws</h3><table class="tally"><thead><tr><th scope="col">Card</th><th scope="col">named</th><th scope="col">makes, of ${draws[0].weight}</th></tr></thead><tbody>${order.map(([name, it]) => `<tr><td>${card(name)}</td><td>${it.named} of ${draws.length}</td><td>${span(it.least, it.most)}</td></tr>`).join('')}</tbody></table>`;
}

function condition(seat) {
  const name = NAMES[seat], isBad = S.fault && (S.fault.field === name || S.fault.field === 'where' && S[name]);
  return `<div class="field"><label for="${name}">${SEAT[seat]} holds</label><input id="${name}" name="${name}" value="${esc(S[name])}" placeholder="${seat === S.where.defenders[0] ? '0-11 hcp, 4+ diamonds' : 'anything'}" maxlength="200" autocomplete="off" spellcheck="false" aria-describedby="fault" ${isBad ? 'aria-invalid="true"' : ''}></div>`;
}

export function drawer() {
  const element = $('drawer');
  element.hidden = !S.hasDrawer;
  $('desk').classList.toggle('drawn', S.hasDrawer);
  if (!S.hasDrawer) return;
  // A round that comes in must not take a half-typed condition away: the form is written anew only for another board.
  const key = `${S.file} ${S.game}`;
  if (element.dataset.key !== key) {
    element.dataset.key = key;
    element.innerHTML = `<h2><span id="lay-h">Layouts</span><button type="button" data-do="layouts" aria-label="Close the layouts">✕</button></h2><p id="drawn"></p>
<form id="cond"><div class="two"><div class="field"><label for="many">How many</label><input id="many" inputmode="numeric" value="${S.draw}" autocomplete="off"></div><div class="field"><label for="seed">Seed</label><input id="seed" inputmode="numeric" value="${S.seed}" autocomplete="off"></div></div>
${S.where.defenders.map(condition).join('')}<p id="fault" class="bad small" role="alert"></p>
<details><summary class="small">Write it with a form</summary><div class="field"><label for="whose">Hand</label><select id="whose">${S.where.defenders.map(it => `<option value="${NAMES[it]}">${SEAT[it]}</option>`).join('')}</select></div><div class="maker">${['hcp', ...'SHDC'].map(it => `<label><span>${it.length > 1 ? 'points' : `${pip(it)}<span class="vh">${SUIT[it][2]}</span>`}</span><input data-term="${it}" placeholder="any" autocomplete="off"></label>`).join('')}</div></details>
<div class="field"><label for="limit">Think for at most, in seconds</label><input id="limit" inputmode="numeric" value="${S.limit}" autocomplete="off"></div>
<div class="row gap"><button class="main" type="submit">Use</button><button type="button" data-do="again" aria-keyshortcuts="d">Draw again</button></div></form>
<div id="tally"></div><h3>Each layout</h3><ol class="laylist" id="laylist"></ol>`;
  }
  if (document.activeElement !== $('seed')) $('seed').value = S.seed;
  const isOurs = S.fault && ['north', 'east', 'south', 'west', 'where', 'draw', 'seed'].includes(S.fault.field);
  $('fault').textContent = isOurs ? S.fault.refused : '';
  for (const seat of S.where.defenders) $(NAMES[seat]).toggleAttribute('aria-invalid', Boolean(isOurs && (S.fault.field === NAMES[seat] || S.fault.field === 'where' && S[NAMES[seat]])));
  for (const it of element.querySelectorAll('[aria-invalid]')) it.setAttribute('aria-invalid', 'true');
  const isBound = S.where.defenders.some(it => S[NAMES[it]]);
  put($('drawn'), S.drawn ? `<b>${S.drawn.layouts.length}</b> drawn of <b>${num(S.drawn.fit)}</b> that the play${isBound ? ' and these conditions allow' : ' allows'}.` : isOurs ? 'None is drawn.' : 'Drawing.');
  put($('tally'), tally());
  put($('laylist'), (S.drawn ? S.drawn.layouts : []).map((layout, at) => `<li><button type="button" data-layout="${at + 1}" aria-pressed="${S.layout === at + 1}"><b>${at + 1}</b><span>${S.where.defenders.map(it => `<span class="hd"><span class="soft">${it}</span> ${line(layout[it])}</span>`).join('')}</span></button></li>`).join(''));
}

// The terms of the form, in the words of --west and --east.
export function write() {
  const terms = [...document.querySelectorAll('[data-term]')].filter(it => it.value.trim());
  $($('whose').value).value = terms.map(it => `${it.value.trim()} ${it.dataset.term === 'hcp' ? 'hcp' : SUIT[it.dataset.term][2]}`).join(', ');
}

export function given() {
  const whole = (id, low, high, default_) => { const value = Number($(id).value); return Number.isInteger(value) && value >= low && value <= high ? value : default_; };
  const told = {draw: whole('many', 1, 256, null), seed: whole('seed', 0, Number.MAX_SAFE_INTEGER, null), limit: whole('limit', 1, 3600, S.limit)};
  for (const seat of S.where.defenders) told[NAMES[seat]] = $(NAMES[seat]).value.trim();
  return told;
}
