// Large reports for tests: workers whose steps fall as chance has it, each with `put`, `get` and `del` on lists that all share.

/** A number from 0 up to `bound`, by a rule that is the same on each machine. */
export function chance(seed) {
  let state = BigInt(seed) * 2n + 1n;
  return bound => {
    state = (state * 6364136223846793005n + 1442695040888963407n) % (1n << 64n);
    return Number((state >> 33n) % BigInt(bound));
  };
}

/** A report and its script: so many workers and commands, in groups nested so deep. */
export function many(workers, commands, depth, seed = 1) {
  const run = new Many(depth, chance(seed));
  const left = Array.from({length: workers}, (_, worker) => ({worker, number: 0, steps: []}));
  const going = [...left];
  while (going.length) {
    const place = run.draw(going.length), worker = going[place];
    if (!worker.steps.length) {
      if (worker.number === commands) {
        going.splice(place, 1);
        continue;
      }
      run.begin(worker, worker.number++);
    }
    // A few steps at a time, so that commands overlap without each being cut at each step.
    for (let turn = 0; turn <= run.draw(12) && worker.steps.length; turn++) worker.steps.shift()();
  }
  return run.texts(workers);
}

class Many {
  constructor(depth, draw) {
    Object.assign(this, {
      depth,
      draw,
      uses: [],
      lookups: 0,
      entries: [],
      items: new Map(),
      replies: new Map(),
      written: new Map(),
      added: 0,
      freed: 0
    });
    for (let group = 0; group <= depth; group++) this.uses.push({lines: [], now: 0});
  }

  begin(worker, number) {
    const who = `${worker.worker} ${number}`, kind = this.draw(8), key = `k${this.draw(5000)}`;
    const path = '/g'.repeat(this.depth), reply = [], then = step => worker.steps.push(step);
    const write = text => {
      if (!this.written.has(worker.worker)) this.written.set(worker.worker, []);
      this.written.get(worker.worker).push(text);
    };
    const use = (group, up) => {
      const of = this.uses[group];
      of.lines.push(`use ${group} ${of.lines.length} ${up ? '+' : '-'} ${of.now} ${who}`);
      of.now += up ? 1 : -1;
    };
    const climb = up => {
      for (let group = this.depth; group >= 0; group--) then(() => use(group, up));
    };
    const end = answer => {
      reply.unshift(`reply ${who} ${answer}`);
      this.replies.set(who, reply);
    };
    const find = () => then(() => reply.push(`find 0 ${this.lookups++} 1`));
    const enter = text => {
      this.entries.push(text);
      return `0 0 ${this.depth} ${this.entries.length - 1}`;
    };
    if (kind < 5) {
      write(`put ${path} 0 c ${key} =v`);
      climb(true);
      find();
      then(() => {
        const is_there = this.items.has(key),
              at = enter(`add ${who} ${this.depth} ${key} =v ${is_there ? 'exists' : 'added'}`);
        if (is_there)
          for (let group = this.depth; group >= 0; group--) worker.steps.push(() => use(group, false));
        else {
          this.items.set(key, {who, marked: false});
          this.added += 1;
        }
        end(`${is_there ? 'exists' : 'added'} ${at}`);
      });
    } else if (kind < 7) {
      write(`get ${path} 0 c ${key}`);
      find();
      then(() => {
        const item = this.items.get(key), at = enter(`look ${who} ${this.depth} ${key} ${item ? 'hit' : 'miss'}`);
        if (item) item.marked = true;
        end(item ? `hit ${at} =v` : `miss ${at}`);
      });
    } else {
      write(`del ${path} 0 c ${key}`);
      find();
      then(() => {
        const is_there = this.items.delete(key),
              at = enter(`drop ${who} ${this.depth} ${key} ${is_there ? 'dropped' : 'miss'}`);
        if (is_there) {
          this.freed += 1;
          for (let group = this.depth; group >= 0; group--) worker.steps.push(() => use(group, false));
        }
        end(`${is_there ? 'dropped' : 'miss'} ${at}`);
      });
    }
  }

  texts(workers) {
    const groups = Array.from({length: this.depth + 1}, (_, group) => '/g'.repeat(group) || '/');
    const replies = [...this.replies].sort(([one], [other]) => {
      const [a, b] = one.split(' ').map(Number), [c, d] = other.split(' ').map(Number);
      return a - c || b - d;
    });
    const items = [...this.items].map(
        ([key, {who, marked}]) => `item ${who} ${this.depth} ${key} =v ${marked ? 'marked' : 'clean'} loose`);
    const report = [
      'report 1', 'size 1 1', ...groups.map((path, group) => `group ${group} ${path}`), 'cache 0 c',
      'pool 0 registered 0 0 0', ...replies.flatMap(([, lines]) => lines), `list 0 0 ${this.depth}`, ...this.entries,
      ...items,
      ...groups.slice(1).map(
          (_, group) => `bit 0 ${group + 1} ${group + 1 === this.depth ? '0000000000000001' : '0000000000000000'}`),
      ...this.uses.flatMap(({lines}) => lines), `lookups 0 ${this.lookups}`,
      `total ${this.added} ${this.freed} ${this.items.size} ${replies.length} 0`, 'end', ''
    ];
    const script =
        ['shrinkers 1', 'size 1 1', ...groups.slice(1).map(path => `group ${path} max`), 'cache c plain 2 0 0 any on'];
    for (let worker = 0; worker < workers; worker++) script.push('worker', ...(this.written.get(worker) ?? []));
    return {report: report.join('\n'), script: [...script, 'end', ''].join('\n')};
  }
}
