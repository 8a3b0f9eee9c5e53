// Nodes and texts for how a write changed its location.
import { elementNode, itemNode, MORE, moreNode, sizeNode, span, times, valueNode } from "./nodes.js";
import { itemsOf } from "./shape.js";
import { byElement, grouped, isBag, isList, isNumber, isSame, isSet, itemKey, plural, sharedLength, shortText } from "./terms.js";

// Return a node for a write's change: the changed items of a set, a bag or a list, else the old value and the new one.
export function changeNode(write, most = Infinity, isInRow = false) {
  if (!write.items) return replacedNode(write.old, write.value, most);
  const out = span("value", sizeNode(write.isBag, write.size), " "), more = () => changeNode(write, most + MORE);
  const removed = write.items.filter(it => it[2] === 0).length, same = write.size + removed - write.items.length;
  if (write.size + removed === 0) out.append(span("undef", "empty"));
  if (write.size + removed <= most) out.append(...allItems(write, isInRow).flatMap(it => changedNode(write, it)));
  else {
    out.append(...write.items.slice(0, most).flatMap(it => changedNode(write, it)));
    if (write.items.length > most) out.append(moreNode("value", `${grouped(write.items.length - most)} more changed`, more));
    if (same) out.append(moreNode("value", `${grouped(same)} unchanged`, more));
    return out;
  }
  if (!write.items.length) out.append(span("same", " unchanged"));
  return out;
}
// Return every item that the location holds before or after the write, with its counts before and after. In a row, which may be
// cut off, the changed ones come first.
function allItems(write, isInRow) {
  const changed = new Set(write.items.map(it => itemKey(it[0])));
  const same = itemsOf(write.location.after(write.index)).filter(it => !changed.has(itemKey(it[0])));
  const unchanged = same.map(([it, count]) => [it, count, count]);
  return isInRow ? [...write.items, ...unchanged] : [...unchanged, ...write.items].sort((a, b) => byElement(a[0], b[0]));
}
function changedNode(write, [element, was, now]) {
  const kind = was === now ? "" : was === 0 ? "added" : now === 0 ? "removed" : "";
  if (!write.isBag) return itemNode(kind, element, null);
  return itemNode(kind, element, was && now && was !== now ? span(`count ${now > was ? "up" : "down"}`, ` ×${was}→${now}`) : times(now || was));
}

function replacedNode(old, value, most) {
  if (isSame(old, value)) return span("value", valueNode(value, most), span("same", " unchanged"));
  const lists = differingParts(old, value);
  if (lists) return listChangeNode(lists, Math.min(most, MOST_PARTS));
  const both = isNumber(old) && isNumber(value), by = both ? BigInt(value) - BigInt(old) : 0n;
  const difference = both ? span("apart", by > 0n ? ` (+${by})` : ` (\u2212${-by})`) : null;
  const from = typeof old === "string" && typeof value === "string" ? sharedLength(old, value) : 0;
  return span("value change", span(old === null ? "old none" : "old", valueNode(old, most, from)), span("arrow", " → "), span("new", valueNode(value, most, from)), difference);
}

// ---- lists
const FEW_ITEMS = 6, MOST_PARTS = 24;
// Compare two long lists: how many items are the same at the front and at the back, and what is between in each.
export function differingParts(old, value) {
  if (!isList(old) || !isList(value) || Math.max(old.list.length, value.list.length) <= FEW_ITEMS) return null;
  const a = old.list, b = value.list, least = Math.min(a.length, b.length);
  let before = 0, behind = 0;
  while (before < least && isSame(a[before], b[before])) before++;
  while (behind < least - before && isSame(a[a.length - 1 - behind], b[b.length - 1 - behind])) behind++;
  return before + behind ? { before, behind, old: a.slice(before, a.length - behind), now: b.slice(before, b.length - behind), size: b.length } : null;
}
// Show the items between. If both lists have equally many, each pair of items is a change.
function listChangeNode({ before, behind, old, now, size }, most) {
  const out = span("value", span("kind", `list of ${grouped(size)}`), " "), same = count => count ? [span("same", `${grouped(count)} same`), " "] : [];
  const isInPlace = old.length === now.length, count = Math.max(old.length, now.length);
  out.append(...same(before));
  for (let i = 0, left = most; i < count && left > 0; i++) {
    if (isInPlace && isSame(old[i], now[i])) continue;
    left--;
    out.append(span("mark", `[${before + i}]: `), ...isInPlace ? [replacedNode(old[i], now[i], most), " "] : [...i < old.length ? itemNode("removed", old[i], null) : [], ...i < now.length ? itemNode("added", now[i], null) : []]);
  }
  const changed = isInPlace ? old.filter((it, i) => !isSame(it, now[i])).length : count;
  if (changed > most) out.append(span("same", `and ${grouped(changed - most)} more changed`), " ");
  out.append(...same(behind));
  return out;
}
// Return a node for what differs in a list from another one.
export function ownPartNode({ before, behind, now, size }) {
  const items = now.slice(0, FEW_ITEMS), left = now.length - items.length;
  return span("value", span("kind", `list of ${grouped(size)}`), " ", span("same", `${grouped(before)} same`), " ",
    items.flatMap((it, i) => [span("mark", `[${before + i}]: `), elementNode(it), " "]), left > 0 ? span("same", `${grouped(left)} more`) : null, span("same", `${grouped(behind)} same`));
}

// Return in a few letters what a write did.
export function changeText(write) {
  if (!write.items) return replacedText(write.old, write.value);
  const size = `${write.isBag ? "bag" : "set"} of ${grouped(write.size)}`, added = write.items.filter(it => it[1] === 0), removed = write.items.filter(it => it[2] === 0);
  if (!write.items.length) return `unchanged, ${size}`;
  const listed = (list, what) => list.length === 0 ? [] : [list.length === 1 ? `${shortText(list[0][0])} ${what}` : `${grouped(list.length)} ${what}`];
  const counted = write.items.length - added.length - removed.length, [element, was, now] = write.items.find(it => it[1] && it[2]) ?? [];
  const recounted = counted === 0 ? [] : [counted === 1 ? `${shortText(element)} ×${was} → ×${now}` : `${grouped(counted)} counts changed`];
  return [...listed(added, "added"), ...listed(removed, "removed"), ...recounted, size].join(", ");
}
function replacedText(old, value) {
  if (isSame(old, value)) return `${shortText(value)} unchanged`;
  const lists = differingParts(old, value);
  if (!lists) return `${shortText(old)} → ${shortText(value)}`;
  const place = `[${lists.before}]: `, size = `list of ${grouped(lists.size)}`;
  if (lists.old.length === 1 && lists.now.length === 1) return `${place}${replacedText(lists.old[0], lists.now[0])}, ${size}`;
  if (lists.old.length === lists.now.length) return `${place}${plural(lists.old.length, "item")} changed, ${size}`;
  return [...lists.old.length ? [`${place}${plural(lists.old.length, "item")} removed`] : [], ...lists.now.length ? [`${place}${lists.now.length === 1 ? shortText(lists.now[0]) : plural(lists.now.length, "item")} added`] : [], size].join(", ");
}
