'use strict';
/* Talking with the server. Streams are lines of text that end with the line `end`: one that does not is a fault, and never taken for a state. */

const TOKEN = document.querySelector('meta[name=token]').content;

async function call(path, body) {
  const headers = { 'X-Desk-Token': TOKEN, ...(body ? { 'Content-Type': 'application/json' } : {}) };
  let answer;
  try {
    answer = await fetch(path, { method: body ? 'POST' : 'GET', headers, body: body && JSON.stringify(body) });
  } catch (fault) {
    lost();
    throw fault;
  }
  found();
  if (answer.ok) sessionStorage.removeItem('reloaded');
  else if (answer.status === 403 && !sessionStorage.getItem('reloaded')) reloadOnce();
  if (!answer.ok) throw { fault: 'no answer', ...await answer.json().catch(() => ({})), status: answer.status };
  return answer;
}

/* another evening has another token, which only a fresh page has */
function reloadOnce() {
  sessionStorage.setItem('reloaded', 'yes');
  location.reload();
}

async function* linesOf(answer) {
  const reader = answer.body.getReader(), decoder = new TextDecoder();
  let rest = '', ended = false;
  for (;;) {
    const { value, done } = await reader.read();
    rest += decoder.decode(value || new Uint8Array(), { stream: !done });
    const lines = rest.split('\n');
    rest = lines.pop();
    for (const line of lines) {
      if (line === 'end') ended = true;
      else yield line.split('\t');
    }
    if (done) break;
  }
  if (!ended) throw { fault: 'the answer broke off' };
}

function frameOf(fields) {
  const [steps, clock, length, out, soaked, kept, room, on, start, given] = fields.slice(1).map(Number);
  const depths = new Int32Array(desk.ground.rows * desk.ground.columns);
  return { steps, clock, length, out, soaked, kept, room, on, start, given, depths, filled: 0 };
}

function accountOf(frame, fields) {
  const [before, rain, hatches, off] = fields.slice(1).map(Number);
  /* the engine's own account, and the server's from tables and clocks */
  return { before, rain, hatches, off: off || frame.on + frame.out + frame.soaked - frame.start - frame.given };
}

function fillRow(frame, fields) {
  for (const field of fields.slice(1)) frame.depths[frame.filled++] = field === 'x' ? -1 : Number(field);
  return frame.filled === frame.depths.length;
}

/* frames and what else an answer has, in their order */
async function* partsOf(answer) {
  let frame = null;
  for await (const fields of linesOf(answer)) {
    const word = fields[0];
    if (word === 'frame') frame = frameOf(fields);
    else if (word === 'rates' && frame) frame.rates = fields.slice(1).map(Number);
    else if (word === 'rates') yield { rates: fields.slice(1).map(Number) };
    else if (word === 'account') frame.account = accountOf(frame, fields);
    else if (word === 'row') {
      if (fillRow(frame, fields)) {
        yield { frame };
        frame = null;
      }
    } else if (word === 'now') {
      const [serial, made, kept, water, same, reworked] = fields.slice(1);
      yield { now: { serial: +serial, made: +made, kept: +kept, water, same, reworked: +reworked } };
    } else if (word === 'mark') yield { mark: [+fields[1], fields.slice(2).join(' ')] };
    else if (word === 'refused') yield { refused: { number: +fields[1], words: fields[2] } };
    else if (word === 'again') yield { again: true };
  }
}

/* ---- what is said of faults */

function trouble(title, words, { calm = false, lasting = 0 } = {}) {
  const box = $('trouble');
  box.replaceChildren(make('b', { textContent: title }), ' ', words);
  box.className = calm ? 'calm' : '';
  box.hidden = false;
  clearTimeout(trouble.timer);
  if (lasting) trouble.timer = setTimeout(() => { box.hidden = true; }, lasting);
}

function lost() {
  if (desk.offline) return;
  desk.offline = true;
  const words = make('span', {}, 'Nothing is lost: every line of each trial is in its journal on the disk. Start it again with ',
    make('code', { textContent: 'bin/desk' }), '; this page goes on by itself.');
  trouble('The desk’s server does not answer.', words);
}

function found() {
  if (!desk.offline) return;
  desk.offline = false;
  $('trouble').hidden = true;
  inTurn(async () => {
    await loadTrials();
    await openNow(desk.current);
  });
}

function fault(why) {
  if (desk.offline) return;
  if (why && why.status === 409) {
    trouble('This trial has moved on in another window.', 'It is shown as it stands now; nothing was done twice.', { calm: true, lasting: 6000 });
    openTrial(desk.current);
  } else trouble('Not done.', String((why && why.fault) || why), { lasting: desk.current ? 12000 : 0 });
}
