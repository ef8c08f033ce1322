/* ---- a word, field by field */

const bitsOf = (word) => BigInt("0x" + word).toString(2).padStart(64, "0");

/** The words to draw: pinned ones, else those the step changed, else those its reasons speak of. */
function wordsShown() {
  if (pinned) {
    const now = run.version(pinned.v, here);
    if (now) {
      const old = here > 0 ? run.version(pinned.v, here - 1) : null;
      return { list: ["end", "begin"].map((which) => ({ v: pinned.v, which, now, old: old && old[which] !== now[which] ? old : null })), more: 0, title: `v${pinned.v}, pinned` };
    }
  }
  const changed = [];
  for (const subject of run.touched[here]) {
    if (!subject.startsWith("version ")) continue;
    const [old, now] = [here > 0 ? run.get(subject, here - 1) : null, run.get(subject, here)];
    if (!old) changed.push({ v: now.v, which: "begin", now, old: null, isNew: true });
    else {
      if (old.end !== now.end) changed.push({ v: now.v, which: "end", now, old });
      if (old.begin !== now.begin) changed.push({ v: now.v, which: "begin", now, old });
    }
  }
  changed.sort((a, b) => (a.isNew ? 1 : 0) - (b.isNew ? 1 : 0));
  const buckets = bucketsMoved().map((bucket) => ({ bucket, now: {}, old: {} }));
  changed.unshift(...buckets);
  if (changed.length) return { list: changed.slice(0, 2), more: changed.length - 2, title: buckets.length === changed.length ? "The bucket that changed" : buckets.length ? "What changed" : changed.length > 1 ? "Words that changed" : "The word that changed" };
  const step = here > 0 ? run.steps[here - 1] : null;
  const spoken = [...(step?.why ?? "").matchAll(/version (\d+)[^\n]*\(([0-9A-F]{16})(, [0-9A-F]{16})?\)/g)].map((it) => it[1]);
  const list = [...new Set(spoken)].map((v) => ({ v: Number(v), which: "end", now: run.version(v, here), old: null })).filter((it) => it.now);
  if (list.length) return { list: list.slice(0, 2), more: list.length - 2, title: "No word changed; it looked at" };
  for (let at = here - 1; at > 0; at--) {
    const subject = run.touched[at].find((it) => it.startsWith("version ") && run.get(it, at - 1) && run.get(it, at - 1).end !== run.get(it, at).end);
    if (subject) return { list: [{ v: Number(subject.slice(8)), which: "end", now: run.get(subject, at), old: run.get(subject, at - 1) }], more: 0, title: `No word changed; the last one that did, at step ${run.done + at}` };
  }
  const first = run.versionIds.length ? run.version(run.versionIds[0], here) : null;
  return { list: first ? [{ v: first.v, which: "end", now: first, old: null }] : [], more: 0, title: "No word changed" };
}

function fieldsOf(word, which) {
  const bits = bitsOf(word);
  if (bits[0] === "0") return [{ name: "ContentType", from: 0, to: 1 }, { name: "Time", from: 1, to: 64 }];
  if (which === "begin") return [{ name: "ContentType", from: 0, to: 1 }, { name: "", from: 1, to: 10 }, { name: "TransactionId", from: 10, to: 64 }];
  return [{ name: "ContentType", from: 0, to: 1 }, { name: "NoMoreReadLocks", from: 1, to: 2 }, { name: "ReadLockCount", from: 2, to: 10 }, { name: "WriteLock", from: 10, to: 64 }];
}

function showWord() {
  const u = rem();
  const { list: all, more: rest, title } = wordsShown();
  if (!all.length) { $("words-title").textContent = title; put("word", '<p class="soft quiet">Click a version to see its words.</p>'); return; }
  const [W, H] = sizes.word;
  const room = isSmall() ? Infinity : H;
  const ways = all.length > 1 ? [[2, 1, false]] : [];
  ways.push([1, 0, true], [1, 1, true], [1, 1, false], [1, 2, false], [1, 3, false], [1, 4, false]);
  let made = null;
  for (const [count, density, hasHex] of ways) {
    const isSingle = count === 1 && !pinned;
    const parts = all.slice(0, count).map((it) => (it.bucket === undefined ? drawWord(it, W, u, density, isSingle, hasHex) : drawBucket(it, W, u, Math.min(density, 3), isSingle)));
    made = { list: all.slice(0, count), html: parts.map((it) => it.html).join(""), isSingle };
    if (parts.reduce((sum, it) => sum + it.height, 0) <= room + 0.1 * u) break;
  }
  const { list, html, isSingle } = made;
  const more = Math.max(rest, 0) + all.length - list.length;
  const note = list[0].old && !/^No/.test(title) ? "" : title.startsWith("No word changed; the last") ? title.replace(/.*, at/, "at") : list[0].isNew ? "new" : "unchanged";
  // a note that has no room beside the caption is left out
  const caption = isSingle ? captionOf(list[0]) : "";
  const hasRoom = widthOf(caption.replace(/<[^>]*>/g, ""), 1.05 * u, 700) + widthOf(note, 0.95 * u) + u <= W;
  const lead = isSingle ? `${caption}${hasRoom ? ` <small>${note}</small>` : ""}` : esc(title);
  $("words-title").innerHTML = lead + (pinned ? ' <button type="button" data-do="unpin">unpin</button>' : more > 0 ? ` <small>${isSingle && note ? "\u00b7 " : ""}and ${more} more</small>` : "");
  put("word", html);
}

/** Which word it is, and what it says: before, and after. */
function captionOf({ v, which, now, old, bucket }) {
  if (bucket !== undefined) return `Bucket ${bucket}: <b>its lock</b>`;
  const said = which === "end" ? saidOfEnd : saidOfBegin;
  return `${which === "end" ? "End" : "Begin"} of v${v}: ${old ? `<s>${esc(said(old))}</s> \u2192 ` : ""}<b>${esc(said(now))}</b>`;
}

/** Where the run of equal bits after the head of the words ends: these bits are folded. */
function foldOf(words) {
  let until = 61;
  for (const bits of words) {
    let at = 10;
    while (at < 64 && bits[at] === bits[10]) at++;
    until = Math.min(until, at);
  }
  return Math.max(until, 11);
}

/** A word as HTML, and its height. */
function drawWord(it, W, u, density, isSingle, hasHex) {
  const { v, which, now, old, isNew } = it;
  const word = now[which];
  const rows = old ? [{ word: old[which], label: "before" }, { word, label: "after" }] : [{ word, label: isNew ? "new" : "" }];
  const all = rows.map((row) => bitsOf(row.word));
  const fold = foldOf(all);
  const tail = 64 - fold;
  const labelW = 3.6 * u;
  const gaps = 1.4 * u;
  const foldW = 5.4 * u;
  const bit = Math.min((W - labelW - gaps - foldW - 0.4 * u) / (10 + tail), 1.75 * u);
  const x = (at) => labelW + (at <= 10 ? at * bit : 10 * bit + foldW + (at - fold) * bit) + (at >= 1 ? 0.35 * u : 0) + (at >= 2 ? 0.35 * u : 0) + (at >= 10 ? 0.7 * u : 0);
  const rowH = [2.3, 1.68, 1.2, 1.1, 0.98][density] * u;
  const head = [1.4, 1.25, 1.02, 0.88, 0][density] * u;
  // where there is little room the names of the fields are small, and stand only over the word as it is; with the least room there are none
  const isTight = density >= 2;
  const type = isTight ? `style="font-size:${f1(0.8 * u)}px"` : "";
  const line = isTight ? head - 0.2 * u : u;
  const out = [];
  let y = 0;
  rows.forEach((row, index) => {
    const bits = all[index];
    const fields = fieldsOf(row.word, which);
    const names = fields.map((it) => it.name).join();
    const before = index > 0 ? fieldsOf(rows[index - 1].word, which).map((it) => it.name).join() : null;
    if (head && names !== before && !(isTight && index === 0 && rows.length > 1 && fieldsOf(rows[1].word, which).map((it) => it.name).join() !== names)) {
      for (const it of fields) {
        const [l, r] = [x(it.from), it.to >= 64 ? x(63) + bit : x(it.to - 1) + bit];
        const texts = { ContentType: ["ContentType", "type", "T"], NoMoreReadLocks: ["NoMoreReadLocks", "NoMore", "NM"], ReadLockCount: ["ReadLockCount", "readers"], WriteLock: ["WriteLock"], TransactionId: ["Transaction"], Time: ["Time"] }[it.name] ?? [it.name];
        const slack = it.name === "ContentType" ? l - 0 + bit - 0.2 * u : r - l;
        if (it.name === "ContentType") { const t = fitting(["type"], labelW + bit, 0.95 * u) || "T"; out.push(`<text class="field" x="${f1(r)}" y="${f1(y + line)}" ${type} text-anchor="end">${t}</text>`); }
        else if (it.name === "NoMoreReadLocks") out.push(`<text class="field" x="${f1(l)}" y="${f1(y + line)}" ${type}>${fitting(["NoMore", "NM"], bit + 2.4 * u, 0.95 * u)}</text>`);
        else { const shift = it.name === "ReadLockCount" ? Math.max(0, widthOf("NoMore", 0.95 * u) - bit - 0.1 * u) : 0; out.push(`<text class="field" x="${f1(l + shift)}" y="${f1(y + line)}" ${type}>${fitting(texts, slack - shift, 0.95 * u)}</text>`); }
      }
      y += head;
    } else if (index === 0) y += 0.25 * u;
    out.push(`<text class="rowname" x="0" y="${f1(y + rowH * 0.66)}">${row.label}</text>`);
    const isTime = bits[0] === "0";
    const isInfinite = isTime && !bits.slice(1).includes("0");
    const moved = (at) => index > 0 && all[index - 1][at] !== bits[at];
    if (isInfinite) {
      const isMoved = index > 0;
      out.push(bitBox(x(0), y, bit, rowH, "0", moved(0), u));
      out.push(`<rect class="whole${isMoved ? " moved" : ""}" x="${f1(x(1))}" y="${f1(y + 1)}" width="${f1(x(63) + bit - x(1))}" height="${f1(rowH - 3)}" rx="3"/><text class="infinity" x="${f1((x(1) + x(63) + bit) / 2)}" y="${f1(y + rowH * 0.68)}" text-anchor="middle">\u221e &#160; infinity (63 ones)</text>`);
    } else {
      for (let at = 0; at < 10; at++) out.push(bitBox(x(at), y, bit, rowH, bits[at], moved(at), u));
      const left = x(10);
      const isFoldMoved = index > 0 && all[index - 1].slice(10, fold) !== bits.slice(10, fold);
      out.push(`<rect class="folded${isFoldMoved ? " moved" : ""}" x="${f1(left)}" y="${f1(y + 1)}" width="${f1(x(fold) - left - 1)}" height="${f1(rowH - 3)}" rx="3"/><text class="foldtext" x="${f1((left + x(fold)) / 2)}" y="${f1(y + rowH * 0.67)}" text-anchor="middle">${fold - 10} ${bits[10] === "1" ? "ones" : "zeros"}</text>`);
      for (let at = fold; at < 64; at++) out.push(bitBox(x(at), y, bit, rowH, bits[at], moved(at), u));
    }
    y += rowH;
  });
  const hex = (word, from) => [...word].map((it, at) => (from && from[at] !== it ? `<b>${it}</b>` : it)).join("");
  const told = old
    ? `<code>${old[which]}</code> \u2192 <code class="new">${hex(word, old[which])}</code>`
    : `<code class="new">${word}</code>`;
  const caption = captionOf(it);
  const html = `<figure class="wordbox">${isSingle ? "" : `<figcaption><span>${caption}</span> <code>${hex(word, old?.[which])}</code></figcaption>`}
    <svg width="${W}" height="${f1(y)}" viewBox="0 0 ${W} ${f1(y)}" role="img" aria-label="${caption.replace(/<[^>]*>/g, "")}: ${word}">${out.join("")}</svg>${hasHex && isSingle ? `<p class="hex">${told}</p>` : ""}</figure>`;
  const lines = Math.ceil((widthOf(caption.replace(/<[^>]*>/g, ""), 1.02 * u, 600) + 10.5 * u) / W);
  return { html, height: y + (isSingle ? (hasHex ? (old && W < 23 * u ? 2.65 : 1.35) * u : 0) : lines * 1.35 * u + 0.4 * u) };
}

const bitBox = (x, y, w, h, bit, isMoved, u) => `<rect class="bit b${bit}${isMoved ? " moved" : ""}" x="${f1(x + 0.5)}" y="${f1(y + 1)}" width="${f1(w - 2)}" height="${f1(h - 3)}" rx="2"/><text class="bittext b${bit}${isMoved ? " moved" : ""}" x="${f1(x + w / 2 - 0.5)}" y="${f1(y + h * 0.5 + 0.34 * Math.min(u, w * 1.4))}" text-anchor="middle"${w < 0.72 * u ? ` style="font-size:${f1(w * 1.4)}px"` : ""}>${bit}</text>`;
