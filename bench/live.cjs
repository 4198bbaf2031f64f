// The other ends of live.py, over Debian's node-ws.
//
//   live.cjs proxy INSPECTOR     passes texts between a client and Node.js's inspector; before each take it has the program run step()
//   live.cjs clients PORT N K    N sessions of serve at once, each of K takes; prints what their replies sum to
const { WebSocket, WebSocketServer } = require('ws');

const FIRST_OWN_ID = 1000000;

function proxy(inspector) {
  const server = new WebSocketServer({ host: '127.0.0.1', port: 0 }, () => console.log(server.address().port));
  server.on('connection', (client) => {
    const target = new WebSocket(inspector);
    const opened = new Promise((resolve) => target.once('open', resolve));
    const waiting = new Map();
    let next = FIRST_OWN_ID;
    const ask = (method, params) =>
      new Promise((resolve) => {
        waiting.set(next, resolve);
        target.send(JSON.stringify({ id: next, method, params }));
        next += 1;
      });
    const evaluate = async (expression) => (await ask('Runtime.evaluate', { expression })).result.result.value;
    target.on('message', (text) => {
      const message = JSON.parse(text);
      if (waiting.has(message.id)) {
        waiting.get(message.id)(message);
        waiting.delete(message.id);
      } else {
        client.send(text.toString());
      }
    });
    let last = opened;
    client.on('message', (text) => {
      last = last.then(async () => {
        if (JSON.parse(text).method === 'Profiler.takePreciseCoverage') {
          await ask('Runtime.runIfWaitingForDebugger');
          while ((await evaluate('typeof step')) !== 'function') await new Promise((resolve) => setTimeout(resolve, 5));
          await evaluate('step()');
        }
        target.send(text.toString());
      });
    });
    client.on('close', () => last.then(() => target.close()));
  });
}

function session(port, takes) {
  const script = ['Profiler.enable', 'Profiler.startPreciseCoverage', ...Array(takes).fill('Profiler.takePreciseCoverage'), 'Profiler.stopPreciseCoverage', 'Profiler.disable'];
  return new Promise((resolve, reject) => {
    const link = new WebSocket(`ws://127.0.0.1:${port}/`);
    const roots = [];
    let sent = 0;
    const say = () => {
      if (sent === script.length) return link.close();
      const params = script[sent] === 'Profiler.startPreciseCoverage' ? { callCount: true, detailed: true } : undefined;
      link.send(JSON.stringify({ id: sent + 1, method: script[sent], params }));
      sent += 1;
    };
    link.on('open', say);
    link.on('message', (text) => {
      const reply = JSON.parse(text);
      if (reply.id !== sent || !reply.result) return reject(new Error(`unexpected reply ${text}`));
      if (script[sent - 1] === 'Profiler.takePreciseCoverage') {
        roots.push(reply.result.result.flatMap((one) => one.functions.map((found) => found.ranges[0].count)));
      }
      say();
    });
    link.on('close', () => resolve(roots));
    link.on('error', reject);
  });
}

async function clients(port, count, takes) {
  const all = await Promise.all(Array.from({ length: count }, () => session(port, takes)));
  const replies = all.flat();
  console.log(JSON.stringify({ replies: replies.length, empty: replies.filter((one) => one.length === 0).length, roots: replies.flat().sort((a, b) => a - b) }));
}

const [call, ...words] = process.argv.slice(2);
if (call === 'proxy') proxy(words[0]);
else clients(...words.map(Number)).catch((fault) => {
  console.error(fault.message);
  process.exit(1);
});
