// node tests/page.js PAGE sweep | same NATIVE COUNT: what tests/page runs in Node, on the module of a page as it stands.
"use strict";
const fs = require("fs"), vm = require("vm"), { execFileSync } = require("child_process");
const core = /<script id="core">([^]*?)<\/script>/.exec(fs.readFileSync(process.argv[2], "utf8"))[1];
const context = vm.createContext({ WebAssembly, Uint8Array, DataView, atob: it => Buffer.from(it, "base64").toString("binary") });
const { Engine, PRESETS, stepsOf, framesOf } = vm.runInContext(`${core}; Engine.start(); ({ Engine, PRESETS, stepsOf, framesOf })`, context);

// The judge is a plain array, and knows nothing of the chip: what the sectors are after steps that were all done.
function plain(steps) {
  const disk = Buffer.alloc(512 * 70);
  for (const [what, sector, fill] of steps) if (what === "W" || what === "Z") disk.fill(what === "W" ? fill : 0, 512 * sector, 512 * (sector + 1));
  return disk;
}

function sweep() {
  let total = 0;
  for (const { name, script } of PRESETS) {
    const steps = stepsOf(script), head = steps.slice(0, -1), last = steps[steps.length - 1], old = plain(head), meant = plain(steps);
    const whole = Engine.play(steps), frames = framesOf(whole), counts = {}, many = steps.length > 300;
    if (!whole.read || meant.compare(whole.contents)) throw new Error(`${name}: without a loss it isn't the plain array`);
    const judge = play => !play.read ? "wrong" : !old.compare(play.contents) ? "old" : !meant.compare(play.contents) ? "new" : "wrong";
    const result = { name, frames: frames.length, changes: frames.filter((it, at) => it[0] === 6 && frames[at + 1] && [1, 2, 0x20].includes(frames[at + 1][0])).length, seconds: 0, wrong: 0 };
    for (const mask of many ? [0x00, 0xFF] : [0x00, 0xFF, 0x0F, 0xA5, 0xFE]) {
      const kinds = [];
      for (let k = 1; k <= frames.length; k++) {
        const lost = [...head, ["C", 0, 0, 0, mask, k], last], cut = Engine.play(lost), back = Engine.play([...lost, ["R"]]);
        if (!cut.answers.endsWith("L")) throw new Error(`${name}: a loss in frame ${k} was answered ${cut.answers.slice(-1)}`);
        kinds.push(judge(back));
        if (k % (many ? 40 : 7) !== 1) continue;
        const again = framesOf(back).length;
        for (let j = 1; j <= again; j += many ? 8 : 1) {
          result.seconds++;
          if (judge(Engine.play([...lost, ["C", 0, 0, 0, mask, j], ["R"], ["R"]])) === "wrong") result.wrong++;
        }
      }
      result.wrong += kinds.filter(it => it === "wrong").length;
      if (mask === 0xFF) Object.assign(result, { old: kinds.filter(it => it === "old").length, new: kinds.filter(it => it === "new").length, first: kinds.indexOf("new") + 1, commit: 0 });
      if (mask === 0xFF && result.first) result.commit = frames.slice(0, result.first).filter((it, at) => it[0] === 6 && [2, 0x20].includes(frames[at + 1][0])).length;
    }
    total += result.wrong;
    console.log(JSON.stringify(result));
  }
  console.log(JSON.stringify({ plays: Engine.plays, wrong: total }));
}

// Random scripts: what the module hands out is compared with what the library for x86-64 does.
function same(native, count) {
  let seed = 12345, bytes = 0, lost = 0;
  const random = n => { seed = (Math.imul(seed, 1103515245) + 12345) >>> 0; return (seed >>> 8) % n; };
  for (let round = 0; round < count; round++) {
    const steps = Array.from({ length: 10 + random(200) }, () => ["WWWWWWWWWWZZTTRRCCCX"[random(20)], random(72), random(256), random(2), random(256), 1 + random(60)]);
    const input = Buffer.concat(steps.map(([what, ...rest]) => Buffer.from([what.charCodeAt(0), ...rest.slice(0, 4), 0, 0, rest[4]])));
    const play = Engine.play(steps), told = Engine.buffer(5, 0, 12).slice();
    const here = Buffer.concat([told, Buffer.from(play.answers, "latin1"), play.image, play.read ? play.contents : Buffer.alloc(0), Engine.buffer(4, 0, 8 * play.rows)]);
    const there = execFileSync(native, { input, maxBuffer: 1 << 24 });
    if (here.compare(there)) throw new Error(`script ${round} of ${steps.length} steps: ${here.length} and ${there.length} bytes, not the same`);
    bytes += here.length;
    lost += [...play.answers].filter(it => it === "L").length;
  }
  console.log(JSON.stringify({ scripts: count, bytes, lost }));
}

if (process.argv[3] === "sweep") sweep(); else same(process.argv[4], +process.argv[5]);
