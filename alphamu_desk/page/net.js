// Questions to the desk's server. An answer that isn't one is thrown as {refused, field}.
async function ask(name, asked, signal) {
  let answer;
  try {
    answer = await fetch(name, {method: 'POST', headers: {'Content-Type': 'application/json'}, body: JSON.stringify(asked), signal});
  } catch (why) {
    if (why.name === 'AbortError') throw why;
    throw {refused: 'it doesn’t answer: start it again', field: '', by: 'the desk'};
  }
  if (answer.status === 422) throw await answer.json();
  if (!answer.ok) throw {refused: answer.status === 413 ? 'the file is too long' : `this is refused (${answer.status})`, field: 'text', by: 'the desk'};
  return answer;
}

export const post = async (name, asked) => (await ask(name, asked)).json();

// Calls `heard` with each line as soon as it comes. The question lives as long as the connection.
export async function stream(name, asked, heard, signal) {
  const reader = (await ask(name, asked, signal)).body.pipeThrough(new TextDecoderStream()).getReader();
  for (let rest = '';;) {
    const {value, done} = await reader.read();
    const lines = (rest + (value || '')).split('\n');
    rest = lines.pop();
    for (const line of lines) if (!signal.aborted) heard(JSON.parse(line));
    if (done) return;
  }
}
