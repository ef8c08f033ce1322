/* ---- buckets: who locks one, and who waits for those */

/** Whether buckets are drawn: where one is locked at some position. */
const bucketIsShown = () => run.bucketIds.length > 0;

/** The transactions that lock a bucket at a position, and those that wait for one of them because of the bucket. */
function bucketAt(bucket, position) {
  const holders = run.get("bucket " + bucket, position)?.holders ?? [];
  const waiters = run.edges(position).filter((it) => it.by.includes(`bucket ${bucket}`)).map((it) => it.from);
  return { holders, waiters: [...new Set(waiters)] };
}

const sameList = (a, b) => a.join() === b.join();

/** Whether a step changes who locks a bucket, or who waits for those. */
function bucketMoved(bucket, position) {
  if (position === 0) return false;
  const [old, now] = [bucketAt(bucket, position - 1), bucketAt(bucket, position)];
  return !sameList(old.holders, now.holders) || !sameList(old.waiters, now.waiters);
}

/** The buckets that the step here changes. */
const bucketsMoved = () => (here === 0 ? [] : run.bucketIds.map((it) => it.slice(7)).filter((it) => bucketMoved(it, here)));

/** Transactions as round tokens from a place on, and the place after them; "nobody" where there is none. */
function tokensOf(ids, x, mid, r, u, most) {
  if (!ids.length) return [`<text class="vname" x="${f1(x)}" y="${f1(mid + 0.34 * u)}">nobody</text>`, x + widthOf("nobody", u) + 0.2 * u];
  const shown = ids.slice(0, most);
  const out = shown.map((id, index) => readerToken(id, x + r + index * (2 * r + 0.12 * u), mid, r, u, ids.length > most && index === most - 1 ? ids.length - most + 1 : 0));
  return [out.join(""), x + shown.length * (2 * r + 0.12 * u) + 0.2 * u];
}

/** The head of a bucket's box over its versions: its lockers, and the waiters. */
function bucketHead(bucket, y, { u, W, bucketH, narrow, isPhone }) {
  const { holders, waiters } = bucketAt(bucket, here);
  const mid = y + bucketH / 2;
  const r = Math.min(bucketH * 0.4, 0.72 * u);
  const base = f1(mid + 0.36 * u);
  const most = narrow || isPhone ? 3 : 6;
  const out = [`<g class="bucket${bucketMoved(bucket, here) ? " moved" : ""}" style="font-size:${f1(u)}px"><title>${esc(bucketSaid(bucket, here))}</title><rect class="head" x="0.7" y="${f1(y + 1)}" width="${f1(W - 1.4)}" height="${f1(bucketH - 1)}" rx="${f1(0.3 * u)}"/>`];
  let x = 0.4 * u;
  const say = (text, name = "vname") => { out.push(`<text class="${name}" x="${f1(x)}" y="${base}">${text}</text>`); x += widthOf(text, u, name === "bucketname" ? 700 : 400) + 0.5 * u; };
  const show = (ids) => { const [html, next] = tokensOf(ids, x, mid, r, u * 0.94, most); out.push(html); x = next + 0.5 * u; };
  say(`bucket ${bucket}`, "bucketname");
  if (holders.length) { say(narrow || isPhone ? "locked:" : "locked by"); show(holders); } else say("no lock");
  if (waiters.length) { say(narrow || isPhone ? "wait:" : "waiting for that lock"); show(waiters); }
  return out.join("") + "</g>";
}

const namesSaid = (ids) => ids.map(nameOf).join(", ") || "nobody";
function bucketSaid(bucket, position) {
  const { holders, waiters } = bucketAt(bucket, position);
  return `bucket ${bucket}: locked by ${namesSaid(holders)}; waiting: ${namesSaid(waiters)}`;
}

/** A bucket as the step changes it: before and after, as words are. */
function drawBucket({ bucket }, W, u, density, isSingle) {
  const rowH = [2.3, 1.8, 1.3, 1.1][density] * u;
  const head = [1.4, 1.25, 1.05, 0.95][density] * u;
  const [old, now] = [bucketAt(bucket, here - 1), bucketAt(bucket, here)];
  const [first, second] = [3.6 * u, 3.6 * u + (W - 3.6 * u) / 2];
  const r = Math.min(rowH * 0.4, 0.85 * u);
  const most = Math.max(2, Math.floor((W - 3.6 * u) / 2 / (2 * r + 0.12 * u)) - 1);
  const out = [`<text class="field" x="${f1(first)}" y="${f1(u)}">LockList</text><text class="field" x="${f1(second)}" y="${f1(u)}">${fitting(["who waits for them", "waiters"], (W - 3.6 * u) / 2, 0.95 * u)}</text>`];
  let y = head;
  for (const [label, it, isMoved] of [["before", old, false], ["after", now, true]]) {
    out.push(`<text class="rowname" x="0" y="${f1(y + rowH * 0.66)}">${label}</text>`);
    for (const [from, list, before] of [[first, it.holders, old.holders], [second, it.waiters, old.waiters]]) {
      const lit = isMoved && !sameList(list, before) ? " moved" : "";
      out.push(`<rect class="slot${lit}" x="${f1(from)}" y="${f1(y + 1)}" width="${f1((W - 3.6 * u) / 2 - 0.5 * u)}" height="${f1(rowH - 3)}" rx="3"/>`, tokensOf(list, from + 0.3 * u, y + rowH / 2 - 0.5, r, u * 0.94, most)[0]);
    }
    y += rowH;
  }
  const html = `<figure class="wordbox">${isSingle ? "" : `<figcaption><span>Bucket ${bucket}: <b>its lock</b></span></figcaption>`}<svg width="${W}" height="${f1(y)}" viewBox="0 0 ${W} ${f1(y)}" style="font-size:${f1(u)}px" role="img" aria-label="before, ${esc(bucketSaid(bucket, here - 1))}; after, ${esc(bucketSaid(bucket, here))}">${out.join("")}</svg></figure>`;
  return { html, height: y + (isSingle ? 0.4 : 1.75) * u };
}
