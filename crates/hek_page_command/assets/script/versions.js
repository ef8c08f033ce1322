/* ---- the versions on an axis of time */

/** What the transaction of the step sees of each version that it looks at, and the time at which it looks. */
function sightsOf(step) {
  const sights = new Map();
  const [first, ...lines] = linesOf(step?.sees ?? "");
  for (const line of lines) {
    const [, v, how, , ifCommits] = /^(\d+) (seen|passed over)( if (\S+))?$/.exec(line);
    sights.set(v, { isSeen: how === "seen", ifCommits: ifCommits ?? null });
  }
  return { sights, time: first ? Number(first.slice(3)) : null };
}

/** The last time on the axis of the clock: a few past now, in steps of three, so that it neither jumps nor says how many are to come. */
const lastTime = () => Math.max(4, Math.ceil((run.clock(here) + 1) / 3) * 3);

/** Keys with their versions, the ones that matter here first if not all fit. */
function keysShown(rows, step, sights) {
  const keys = new Map();
  for (const v of run.versionIds) {
    const it = run.version(v, here);
    if (!it) continue;
    if (!keys.has(it.key)) keys.set(it.key, { key: it.key, versions: [], last: 0 });
    const kept = keys.get(it.key);
    kept.versions.push(it);
  }
  const all = [...keys.values()].sort((a, b) => (BigInt(a.key) < BigInt(b.key) ? -1 : 1));
  const count = all.reduce((sum, it) => sum + it.versions.length, 0);
  if (count <= rows) return { keys: all, hidden: 0 };
  const touched = new Set(run.touched[here].filter((it) => it.startsWith("version ")).map((it) => it.slice(8)));
  const spoken = new Set([...(step?.why ?? "").matchAll(/version (\d+)/g)].map((it) => it[1]));
  const me = step?.name ? run.txn(run.ids.get(step.name), here) : null;
  const mine = new Set(me ? [...me.reads, ...me.writes.map((it) => it.split("-")[1])] : []);
  const weight = (it) => (mine.has(String(it.v)) ? 1e8 : 0) + (spoken.has(String(it.v)) || sights.has(String(it.v)) || touched.has(String(it.v)) ? 1e9 : it.writer || it.maker ? 2e6 : it.readers ? 1e6 : 0) + (it.ended ? 0 : 1e5) + Math.min(it.v, 9e4);
  const best = all.flatMap((it) => it.versions).sort((a, b) => weight(b) - weight(a)).slice(0, rows);
  const kept = new Set(best);
  const some = all.map((it) => ({ ...it, versions: it.versions.filter((v) => kept.has(v)) })).filter((it) => it.versions.length);
  return { keys: some, hidden: count - rows };
}

/** The type of a key and a value that take a line each. */
const LONG = { size: 0.78 };

/** How wide the longest key or value of the run is, in its own line, if one is too long to stand beside the others; else 0. */
function longestNumber() {
  if (run.longest === undefined) {
    const its = [...run.past].filter(([subject]) => subject.startsWith("version ")).flatMap(([, list]) => list.map(([, it]) => it));
    const texts = [...new Set(its.flatMap((it) => [it.key, it.value]))];
    const isLong = its.some((it) => it.key.length > 6 || it.value.length > 4);
    run.longest = isLong ? Math.max(...texts.map((it) => widthOf(it, LONG.size, 700))) : 0;
  }
  return run.longest;
}

/** Where the columns and rows of the versions are. */
function chainLayout(step, sights, time) {
  const u = rem();
  const [W, room] = sizes.chains;
  const isPhone = isSmall();
  const isLow = viewHeight < 48 * u && !isPhone;
  const lookH = !isLow && run.steps.some((it) => it.sees !== "") ? 1.4 * u : 0;
  const axisH = 1.5 * u + lookH;
  const longest = longestNumber();
  const least = (longest ? (isLow ? 1.65 : 2.15) : isLow ? 1.6 : 2.05) * u;
  const bucketH = bucketIsShown() ? (isLow ? 1.5 : 1.7) * u : 0;
  const fitRows = (buckets) => (isPhone ? 12 : Math.max(bucketH ? 1 : 2, Math.floor((room - axisH - buckets * bucketH - 0.3 * u) / least)));
  let { keys, hidden } = keysShown(fitRows(bucketH ? 1 : 0), step, sights);
  let groups = groupsOf(keys, bucketH > 0);
  if (groups.length > 1 && bucketH) { ({ keys, hidden } = keysShown(fitRows(groups.length), step, sights)); groups = groupsOf(keys, true); }
  const count = keys.reduce((sum, it) => sum + it.versions.length, 0);
  const boxesH = bucketH * groups.length;
  const each = Math.max((room - axisH - boxesH - 0.4 * u) / Math.max(count, 1), least);
  const k = isPhone ? 1 : Math.max(1, Math.min(1.28, each / (3.3 * u), (W / u - 20) / 19));
  const rowH = isPhone ? least * 1.15 : Math.min(each, 6.4 * u * k);
  const narrow = W < 36 * u;
  const usual = (isPhone ? 7 : narrow ? 8.8 : 9.2) * u * k;
  const values = longest ? Math.max(usual, (longest + 2.6) * u * k) : usual;
  const r = Math.min(rowH * 0.36, 0.9 * u * k);
  const marks = { from: values, readers: narrow || isPhone ? 2 : 3, r, wide: marksWidth(narrow || isPhone ? 2 : 3, r, u * k) };
  const left = values + marks.wide;
  const right = (isPhone ? 1.9 : narrow ? 2.6 : 9.8) * u * k;
  return { u, k, W, isPhone, narrow, axisH, lookH, bucketH, groups, hidden, count, rowH, marks, left, right, H: axisH + count * rowH + boxesH + 0.4 * u, foot: axisH + count * rowH + boxesH };
}

/** How wide the column of locks is, so that it has room for the locks of each version of the run. */
function marksWidth(readers, r, u) {
  if (run.lockCounts === undefined) {
    const its = [...run.past].filter(([subject]) => subject.startsWith("version ")).flatMap(([, list]) => list.map(([, it]) => it)).filter((it) => it.readers || it.writer);
    run.lockCounts = [...new Set(its.map((it) => `${Math.min(it.readers, 5)} ${it.writer ? 1 : 0} ${it.noMore ? 1 : 0}`))].map((it) => it.split(" ").map(Number));
  }
  const wide = run.lockCounts.map(([count, writer, gate]) => Math.min(count, readers) * (2 * r + 0.12 * u) + writer * (2 * r + 1.2 * u) + gate * (2 * r + 0.2 * u));
  return wide.length ? Math.max(...wide, 2.6 * u) + 0.7 * u : 0;
}

/** Keys as they are shown: in groups by bucket where a bucket is locked in the run, else in one group. */
function groupsOf(keys, byBucket) {
  if (!byBucket) return [{ bucket: null, keys }];
  const groups = new Map();
  for (const it of keys) { const bucket = String(BigInt(it.key) % BigInt(data.buckets)); groups.set(bucket, [...(groups.get(bucket) ?? []), it]); }
  for (const it of run.bucketIds.map((id) => run.get(id, here)).filter(Boolean)) if (!groups.has(it.bucket)) groups.set(it.bucket, []);
  return [...groups].sort(([a], [b]) => a - b).map(([bucket, its]) => ({ bucket, keys: its }));
}

/** The places of the times on the axis: each time a place; those between which nothing lies are left out where there are many. */
function axisPlaces({ groups, W, left, right }, time, now) {
  let times = Array.from({ length: Math.min(lastTime(), 13) + 1 }, (_, at) => at);
  if (lastTime() > 13) {
    const its = new Set([0, now, ...(time !== null ? [time] : [])]);
    for (const it of groups.flatMap((group) => group.keys).flatMap((key) => key.versions)) { if (it.made) its.add(Number(it.made)); if (it.ended) its.add(Number(it.ended)); const m = it.maker && run.txn(it.maker, here).end; if (m) its.add(Number(m)); }
    times = [...its].sort((a, b) => a - b);
  }
  const unit = (W - left - right) / (times.length + 1.7);
  return { times, unit, place: new Map(times.map((it, index) => [it, left + (index + 0.35) * unit])) };
}

/** What the plate over the line of a look says, longest first: at which time the transaction reads, and which time that is. */
function lookTexts(step, actor, time) {
  const verb = /^(insert|update|delete)$/.test(step.op) ? "looks" : "reads";
  const which = run.txn(actor, here).level === "snapshot" ? "its begin" : "the clock";
  return [...namedTexts(actor, (name) => `${name} ${verb} at ${which}, ${time}`), `${verb} at ${which}, ${time}`, `${verb} at ${time}`];
}

function showChains() {
  const step = here > 0 ? run.steps[here - 1] : null;
  const { sights, time } = sightsOf(step);
  const actor = step?.name ? run.ids.get(step.name) : null;
  const it = chainLayout(step, sights, time);
  const { u, k, W, H, isPhone, narrow, axisH, lookH, rowH, left, right, foot, marks } = it;
  const now = run.clock(here);
  const { times, unit, place } = axisPlaces(it, time, now);
  const X = (t) => place.get(Number(t)) ?? left;
  const endX = W - right - 0.5 * u;
  const futureX = X(now) + unit * 0.55;
  const out = [`<rect class="ahead" x="${f1(X(now))}" y="${f1(axisH)}" width="${f1(endX - X(now) + 0.5 * u)}" height="${f1(foot - axisH)}"/>`];
  const lookX = time !== null && place.has(time) ? X(time) : null;
  const plate = lookX === null ? null : plateOf(lookTexts(step, actor, time), lookX, W, u);
  const nowWide = widthOf((unit > 2.05 * u ? "now " : "") + now, 1.05 * u, 700);
  let until = -Infinity;
  for (const t of times) {
    const isNow = t === now;
    out.push(`<line class="grid${isNow ? " nowline" : ""}" x1="${f1(X(t))}" x2="${f1(X(t))}" y1="${f1(axisH)}" y2="${f1(foot)}"/>`);
    if (plate && !lookH && X(t) > plate.from - 0.5 * u && X(t) < plate.from + plate.wide + 0.5 * u) continue;
    const half = isNow ? nowWide / 2 : widthOf(String(t), 0.95 * u) / 2;
    if (!isNow && (X(t) - half < until + 0.3 * u || X(t) + half > (t < now ? X(now) - nowWide / 2 - 0.3 * u : endX - 0.8 * u))) continue;
    until = X(t) + half;
    out.push(`<text class="tick${isNow ? " at" : ""}" x="${f1(X(t))}" y="${f1(lookH + 1.05 * u)}" text-anchor="middle">${isNow ? (unit > 2.05 * u ? "now " : "") + t : t}</text>`);
  }
  const isUnderPlate = (from, to) => plate !== null && !lookH && from < plate.from + plate.wide + 0.2 * u && to > plate.from - 0.2 * u;
  if (endX - X(now) > nowWide / 2 + 0.8 * u && !isUnderPlate(endX - 0.5 * u, endX + 0.5 * u)) out.push(`<text class="tick inf" x="${f1(endX)}" y="${f1(lookH + 1.12 * u)}" text-anchor="middle">\u221e</text>`);
  if (marks.wide && !isUnderPlate(marks.from + 0.25 * u, marks.from + 0.25 * u + widthOf("locks", 0.95 * u))) out.push(`<text class="tick" x="${f1(marks.from + 0.25 * u)}" y="${f1(lookH + 1.05 * u)}">${fitting(["locks"], marks.wide - 0.6 * u, 0.95 * u)}</text>`);
  const readers = readersHere();
  const tokens = [];
  let y = axisH;
  for (const { bucket, keys } of it.groups) {
    const top = y;
    if (bucket !== null) { out.push(bucketHead(bucket, y, it)); y += it.bucketH; }
    for (const { key, versions } of keys) {
      out.push(`<line class="rule" x1="0" x2="${W}" y1="${f1(y)}" y2="${f1(y)}"/>`);
      if (longestNumber()) out.push(`<text class="keyname" x="${f1(0.3 * u)}" y="${f1(y + rowH / 2 - 0.15 * u * k)}" style="font-size:${f1(LONG.size * u * k)}px">${esc(fitting([`key ${key}`, key], marks.from - 0.5 * u, LONG.size * u * k) || key)}</text>`);
      else out.push(`<text class="keyname" x="${f1(0.3 * u)}" y="${f1(y + rowH / 2 + 0.38 * u * k)}">${esc(fitting([`key ${key}`, key, ...[5, 4, 3, 2].map((count) => key.slice(0, count) + "\u2026")], marks.from - (isPhone ? 4.8 : narrow ? 4.9 : 5.4) * u * k, u * k))}</text>`);
      for (const version of versions) {
        const [under, over] = versionRow(version, y, rowH, { u: u * k, W, X, endX, futureX, left, right, marks, sights, actor, isPhone, narrow, now, readers, lookX });
        out.push(under);
        tokens.push(over);
        y += rowH;
      }
    }
    if (bucket !== null) out.push(`<rect class="bucketbox" x="0.7" y="${f1(top + 1)}" width="${f1(W - 1.4)}" height="${f1(y - top - 2)}" rx="${f1(0.3 * u)}"/>`);
  }
  if (lookX !== null) {
    out.push(`<g class="look ${colourOf(actor)}"><line x1="${f1(lookX)}" x2="${f1(lookX)}" y1="${f1(1.3 * u)}" y2="${f1(foot)}"/><path d="${arrowTip(lookX, foot, false, 0.6 * u)}"/></g>`, ...tokens.splice(0));
    const isNow = time === now;
    const tick = `${isNow && unit > 2.05 * u ? "now " : ""}${time}`;
    // Where the time that is now would touch the tick, the plate alone says the time of the look.
    const isTick = lookH > 0 && (isNow || X(now) - lookX > (nowWide + widthOf(tick, 1.05 * u, 700)) / 2 + 0.4 * u);
    out.push(`<g class="look ${colourOf(actor)}"><rect class="plate" x="${f1(plate.from)}" y="${f1(0.04 * u)}" width="${f1(plate.wide)}" height="${f1(1.26 * u)}" rx="${f1(0.3 * u)}"/><text class="looktext" x="${f1(plate.from + plate.wide / 2)}" y="${f1(0.98 * u)}" text-anchor="middle">${esc(plate.text)}</text>${isTick ? plateTick(tick, lookX, lookH, u, isNow) : ""}</g>`);
  }
  out.push(...tokens);
  if (it.hidden) out.push(`<text class="tick" x="${f1(0.2 * u)}" y="${f1(lookH + 1.05 * u)}">+ ${it.hidden} more</text>`);
  const attributes = { width: `${W}`, height: `${f1(H)}`, viewBox: `0 0 ${W} ${f1(H)}`, style: `font-size:${f1(u * k)}px`, role: "group", "aria-label": "Versions" };
  putDrawing("chains", attributes, [{ shift: 0, parts: out }]);
}

/** The plate over the line at which a transaction looks. */
function plateOf(texts, x, W, u) {
  const text = fitting(texts, W - u, 0.95 * u, 600);
  const wide = widthOf(text, 0.95 * u, 600) + 0.6 * u;
  return { text, wide, from: Math.max(Math.min(x - wide / 2, W - wide), 0) };
}

/** The time of a look over the line that goes through its tick. */
function plateTick(text, x, lookH, u, isNow) {
  const wide = widthOf(text, (isNow ? 1.05 : 0.95) * u, 700) + 0.3 * u;
  return `<rect class="byplate" x="${f1(x - wide / 2)}" y="${f1(lookH + 0.15 * u)}" width="${f1(wide)}" height="${f1(1.15 * u)}"/><text class="tick at" x="${f1(x)}" y="${f1(lookH + 1.05 * u)}" text-anchor="middle">${text}</text>`;
}

/** The transactions that read-lock each version here. */
function readersHere() {
  const readers = new Map();
  for (const id of run.txnIds) for (const v of run.txn(id, here).reads) readers.set(v, [...(readers.get(v) ?? []), id]);
  return readers;
}

function versionRow(it, y, h, at) {
  const { u, W, X, endX, futureX, left, right, marks, sights, isPhone, narrow, lookX } = at;
  const sight = sights.get(String(it.v));
  const touched = run.touched[here].includes("version " + it.v);
  const maker = it.maker ? run.txn(it.maker, here) : null;
  const writer = it.writer ? run.txn(it.writer, here) : null;
  const isNever = it.bt === "infinity" || maker?.kind === "aborted";
  const out = [];
  const label = `version ${it.v}, key ${it.key}, value ${it.value}: ${saidOfBegin(it)}; End ${saidOfEnd(it)}${sight ? `; ${sight.isSeen ? "seen" : "passed over"}` : ""}`;
  out.push(`<g class="version${touched ? " touched" : ""}${isNever ? " never" : ""}${pinned?.v === it.v ? " pinned" : ""}" data-v="${it.v}" role="button" tabindex="0" aria-label="${esc(label)}">`);
  out.push(`<rect class="hit" x="${f1(marks.from - 5.4 * u)}" y="${f1(y + 1)}" width="${f1(W - marks.from + 5.4 * u)}" height="${f1(h - 2)}"/>`);
  const base = y + h / 2 + 0.38 * u;
  if (longestNumber()) {
    const [line, type] = [y + h / 2 + 0.68 * u, `style="font-size:${f1(LONG.size * u)}px"`];
    out.push(`<text class="vname" x="${f1(0.3 * u)}" y="${f1(line)}" ${type}>v${it.v}</text><text class="value" x="${f1(marks.from - 0.35 * u)}" y="${f1(line)}" text-anchor="end" ${type}>${esc(it.value)}</text>`);
  } else out.push(`<text class="vname" x="${f1(marks.from - (isPhone ? 4.4 : narrow ? 4.6 : 5) * u)}" y="${f1(base)}">v${it.v}</text><text class="value" x="${f1(marks.from - 0.35 * u)}" y="${f1(base)}" text-anchor="end">${esc(fitting([it.value, ...[4, 3, 2].map((count) => it.value.slice(0, count) + "\u2026")], 3.1 * u, 1.15 * u, 700) || "\u2026")}</text>`);
  const barH = Math.min(h * 0.72, 3.5 * u);
  const barY = y + (h - barH) / 2;
  // from where
  let x0;
  let open0 = "";
  if (isNever) x0 = null;
  else if (it.made) x0 = X(it.made);
  else if (maker.end && (maker.kind === "preparing" || maker.kind === "committed" || maker.kind === "terminated")) { x0 = X(maker.end); if (maker.kind === "preparing") open0 = "promised"; }
  else { x0 = futureX; open0 = "unborn"; }
  // until where
  let x1 = endX;
  let close = "live";
  if (it.ended) { x1 = X(it.ended); close = "ended"; }
  else if (writer) {
    if (writer.end && (writer.kind === "committed" || writer.kind === "terminated")) { x1 = X(writer.end); close = "ended"; }
    else if (writer.end && writer.kind === "preparing") { x1 = X(writer.end); close = "promised"; }
    else if (writer.kind !== "aborted") close = "written";
  }
  if (isNever) {
    out.push(`<rect class="bar neverbar" x="${f1(futureX)}" y="${f1(barY)}" width="${f1(Math.max(endX - futureX, 0))}" height="${f1(barH)}"/>`);
  } else {
    const owner = open0 ? colourOf(it.maker) : "";
    const wide = Math.max(x1 - x0, 0.28 * u);
    const arrow = Math.min(barH * 0.42, 0.7 * u);
    const shape = close === "live" || close === "written"
      ? `M${f1(x0)} ${f1(barY)}H${f1(endX - arrow)}L${f1(endX + 0.3 * u)} ${f1(barY + barH / 2)}L${f1(endX - arrow)} ${f1(barY + barH)}H${f1(x0)}Z`
      : `M${f1(x0)} ${f1(barY)}h${f1(wide)}v${f1(barH)}h${f1(-wide)}Z`;
    out.push(`<path class="bar ${open0} ${owner}" d="${shape}"/>`);
    // what a writer would take away, if it commits: the rest of the bar is struck out in its colour
    if (close === "written") {
      const from = Math.max(x0, futureX);
      out.push(`<path class="taken ${colourOf(it.writer)}" d="M${f1(from)} ${f1(barY + 2)}H${f1(endX - arrow)}L${f1(endX + 0.3 * u - 3)} ${f1(barY + barH / 2)}L${f1(endX - arrow)} ${f1(barY + barH - 2)}H${f1(from)}Z"/>`);
      const text = fitting([...namedTexts(it.writer, (name) => `until ${name} commits`), ...namedTexts(it.writer, (name) => `until ${name}`)], endX - from - 0.75 * u, 0.95 * u, 600);
      if (text && it.writer !== it.maker && x0 < from - 0.2 * u) out.push(`<text class="by ${colourOf(it.writer)}" x="${f1(from + 0.45 * u)}" y="${f1(y + h / 2 + 0.33 * u)}">${esc(text)}</text>`);
    }
    if (close === "promised") out.push(`<path class="tail ${colourOf(it.writer)}" d="M${f1(x1)} ${f1(barY)}H${f1(endX)}M${f1(x1)} ${f1(barY + barH)}H${f1(endX)}"/><line class="cut ${colourOf(it.writer)}" x1="${f1(x1)}" x2="${f1(x1)}" y1="${f1(barY - 2)}" y2="${f1(barY + barH + 2)}"/>`);
  }
  // the locks: readers as round tokens, the writer as a square one with a lock
  const under = out.splice(0).join("") + "</g>";
  out.push(`<g class="version${touched ? " touched" : ""}${isNever ? " never" : ""}" data-v="${it.v}">`);
  const mid = y + h / 2;
  out.push(marksOf(it, writer, at.readers.get(String(it.v)) ?? [], mid, marks, u));
  if (it.made && it.made === it.ended && !it.writer) out.push(`<text class="by" x="${f1(x1 + 0.7 * u)}" y="${f1(mid + 0.33 * u)}">at no time</text>`);
  // which transaction made it, until that is decided
  if (!isNever && it.maker) {
    const words = it.writer === it.maker ? [...namedTexts(it.maker, (name) => `written over by ${name} itself`), ...namedTexts(it.maker, (name) => `gone, by ${name}`), "gone"] : open0 === "unborn" ? [`made by ${nameOf(it.maker)}, not committed`, ...namedTexts(it.maker, (name) => `valid if ${name} commits`), ...namedTexts(it.maker, (name) => `if ${name} commits`), `${shortOf(it.maker)}'s`]
      : open0 === "promised" ? [...namedTexts(it.maker, (name) => `if ${name} commits`), `${shortOf(it.maker)}?`] : namedTexts(it.maker, (name) => `by ${name}, not stamped yet`).concat(namedTexts(it.maker, (name) => `by ${name}`));
    let from = x0 + 0.45 * u;
    if (lookX !== null && from < lookX + 0.4 * u && from + 4 * u > lookX) from = lookX + 0.4 * u;
    const text = fitting(words, Math.min(x1, close === "written" && !open0 ? futureX : endX - 0.5 * u) - from - 0.1 * u, 0.95 * u, open0 ? 600 : 400);
    if (text) out.push(`<text class="by ${open0 ? colourOf(it.maker) : ""}" x="${f1(from)}" y="${f1(mid + 0.33 * u)}">${esc(text)}</text>`);
  }
  if (isNever) {
    const words = maker ? [...namedTexts(it.maker, (name) => `${name} aborted`), "aborted", "\u2717"] : ["never valid", "never", "\u2717"];
    const text = fitting(words, endX - futureX - 0.5 * u, 0.95 * u) || "\u2717";
    const wide = widthOf(text, 0.95 * u) + 0.4 * u;
    const from = (futureX + endX - wide) / 2;
    out.push(`<rect class="byplate" x="${f1(from)}" y="${f1(mid - 0.62 * u)}" width="${f1(wide)}" height="${f1(1.24 * u)}"/><text class="by" x="${f1(from + 0.2 * u)}" y="${f1(mid + 0.33 * u)}">${esc(text)}</text>`);
  }
  // what is seen of it, and its End word
  const isTall = h > 2.9 * u;
  if (!narrow && (!sight || isTall)) out.push(`<text class="endword" x="${f1(W - right + 0.5 * u)}" y="${f1(sight ? base + 0.75 * u : base)}">${it.end}</text>`);
  if (sight) {
    const words = sight.isSeen
      ? sight.ifCommits ? [...namedTexts(run.ids.get(sight.ifCommits), (name) => `\u2713 if ${name} commits`), "\u2713?"] : ["\u2713 seen", "\u2713"]
      : sight.ifCommits ? [...namedTexts(run.ids.get(sight.ifCommits), (name) => `\u2013 if ${name} commits`), "\u2013?"] : ["\u2013 passed over", "\u2013"];
    out.push(`<text class="sight ${sight.isSeen ? "seen" : "unseen"}" x="${f1(W - right + 0.6 * u)}" y="${f1(isTall && !narrow ? base - 0.6 * u : base)}">${esc(fitting(words, right - 0.6 * u, 1.05 * u, 700) || words.at(-1))}</text>`);
  }
  out.push("</g>");
  return [under, out.join("")];
}

const padlock = (x, mid, s) => `M${f1(x)} ${f1(mid - s * 0.1)}h${f1(s * 1.7)}v${f1(s * 1.2)}h${f1(-s * 1.7)}zM${f1(x + s * 0.25)} ${f1(mid - s * 0.1)}v${f1(-s * 0.5)}a${f1(s * 0.6)} ${f1(s * 0.6)} 0 0 1 ${f1(s * 1.2)} 0v${f1(s * 0.5)}h${f1(-s * 0.3)}v${f1(-s * 0.5)}a${f1(s * 0.3)} ${f1(s * 0.3)} 0 0 0 ${f1(-s * 0.6)} 0v${f1(s * 0.5)}z`;


/** The locks of a version, in their column: readers as round tokens, then no more reads, then the writer as a square one with a lock. */
function marksOf(it, writer, readers, mid, { from, readers: most, r }, u) {
  const out = [];
  let x = from + 0.35 * u;
  readers.slice(0, most).forEach((id, index) => {
    const more = readers.length > most && index === most - 1 ? readers.length - most + 1 : 0;
    out.push(readerToken(id, x + r, mid, r, u, more));
    x += 2 * r + 0.12 * u;
  });
  if (it.noMore) {
    out.push(`<g class="gate"><title>no more reads</title><circle cx="${f1(x + r)}" cy="${f1(mid)}" r="${f1(r - 1)}"/><path d="M${f1(x + r - r * 0.62)} ${f1(mid)}h${f1(r * 1.24)}"/></g>`);
    x += 2 * r + 0.2 * u;
  }
  if (it.writer) {
    const text = shortOf(it.writer);
    out.push(`<g class="writer ${colourOf(it.writer)}${writer.kind === "aborted" ? " gone" : ""}"><title>${esc(nameOf(it.writer))} writes</title><rect x="${f1(x)}" y="${f1(mid - r)}" width="${f1(2 * r + 1 * u)}" height="${f1(2 * r)}" rx="2"/><path d="${padlock(x + 0.22 * u, mid, 0.42 * u)}"/><text x="${f1(x + 1.05 * u)}" y="${f1(mid + 0.34 * u)}">${esc(text)}</text></g>`);
  }
  return out.join("");
}

/** A reader, or a holder, as a round token; `more`: of so many others too. */
function readerToken(id, x, mid, r, u, more = 0) {
  const said = more ? `+${more}` : shortOf(id);
  const usual = 0.98 * u;
  const size = Math.min(usual, (usual * 1.7 * r) / widthOf(said, usual, 700));
  return `<g class="reader ${colourOf(id)}"><title>${esc(nameOf(id))}</title><circle cx="${f1(x)}" cy="${f1(mid)}" r="${f1(r)}"/><text x="${f1(x)}" y="${f1(mid + 0.35 * size)}" text-anchor="middle"${size < usual ? ` style="font-size:${f1(size)}px"` : ""}>${esc(said)}</text></g>`;
}
