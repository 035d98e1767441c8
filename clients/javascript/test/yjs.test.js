// The shared types of Yjs, watched: random runs, faults of the network and of what is shown, and what is not reported.
import assert from "node:assert/strict";
import { spawnSync } from "node:child_process";
import { readFileSync, readdirSync } from "node:fs";
import { test } from "node:test";
import { fileURLToPath } from "node:url";
import { NotLinearizable, NotRepresentable } from "../index.js";
import { watch } from "../yjs/index.js";
import { Editors, NETWORKS, Y, synchronize } from "./yjs_editors.js";
import { NAMES, PAGE_CHANGES, fillPage, pageOf, withoutIdentity } from "./yjs_pages.js";

// The number of random runs of Yjs as it is. The release tier has 500.
const RUNS = Number(process.env.YEHATU_YJS_RUNS ?? 50);
const STEPS = 80;
// The number of runs with each planted fault.
const FAULTY_RUNS = 20;

/** Returns the error with which the watcher closes. */
const failureOf = (watcher, options) => watcher.close(options).then(
  (report) => assert.fail(`${report.labels} labels pass`),
  (error) => error,
);

async function requireViolation(watcher, cause, text) {
  const failed = await failureOf(watcher);
  assert.ok(failed instanceof NotLinearizable, failed);
  assert.equal(failed.cause, cause, failed.message);
  assert.match(failed.message, text);
}

/** Documents of ann, bob and cat, which are watched, and whose changes are exchanged by hand. */
function threeEditors() {
  const editors = new Editors("three", { clients: 3 });
  const [ann, bob, cat] = editors.docs;
  return { ann, bob, cat, editors, watcher: watch(editors.named) };
}

/** Returns the updates that a change of this document makes. */
function updatesOf(doc, change) {
  const updates = [];
  const add = (update) => updates.push(update);
  doc.on("update", add);
  change();
  doc.off("update", add);
  return updates;
}

test("all random runs of Yjs pass", async () => {
  const found = { labels: 0, lists: 0, objects: 0, held: 0 };
  const kinds = new Set();
  for (let run = 0; run < RUNS; run += 1) {
    const network = NETWORKS[run % NETWORKS.length];
    const editors = new Editors(run, { network, maps: run % 2 > 0, xml: run % 4 > 1 });
    const watcher = watch(editors.named);
    editors.run(STEPS);
    editors.synchronizeAll();
    assert.equal(new Set(editors.shown()).size, 1);
    const { labels, lists, objects, held, unchecked } = await watcher.close();
    assert.deepEqual(unchecked, []);
    assert.ok([...lists, ...objects].every((it) => it.verdict === "yes" && it.refused === 0));
    for (const { name } of objects) kinds.add(name.split(" ", name.startsWith("the ") ? 4 : 1).join(" "));
    found.labels += labels;
    found.objects += objects.length;
    found.lists += lists.length;
    found.held += held;
  }
  // Each run has a text and an array with many operations and reads, and some documents received others' changes early.
  assert.ok(found.labels > 50 * RUNS && found.lists >= 2 * RUNS && found.held > 0, JSON.stringify(found));
  // Half of the runs have a map, and most of these a map in it. Half of them have an XML tree, with several nodes.
  assert.ok(found.objects > 3 * RUNS, JSON.stringify(found));
  assert.deepEqual([...kinds].sort(), [
    "Y.Map", "Y.XmlElement", "Y.XmlFragment", "Y.XmlHook", "Y.XmlText", "the formatting of Y.Text",
  ]);
});

test("a lost update is found", async () => {
  let found = 0;
  for (let run = 0; run < FAULTY_RUNS; run += 1) {
    let sent = 0;
    const loses = () => (sent += 1) === 7 + run;
    const editors = new Editors(`lost ${run}`, { network: "one after another", loses, xml: run % 2 > 0 });
    const watcher = watch(editors.named);
    editors.run(STEPS);
    editors.deliverAll();
    const areSame = new Set(editors.shown()).size === 1;
    if (areSame) {
      await watcher.close();
      continue;
    }
    const failed = await failureOf(watcher);
    assert.ok(failed instanceof NotLinearizable, failed);
    assert.equal(failed.cause, "query");
    found += 1;
  }
  assert.ok(found > FAULTY_RUNS / 2, `${found}`);
});

test("a lost deletion is found, which Yjs does not miss", async () => {
  const { ann, bob, cat, watcher } = threeEditors();
  ann.getText("text").insert(0, "word");
  for (const it of [bob, cat]) synchronize(ann, it);
  const [lost] = updatesOf(ann, () => ann.getText("text").delete(1, 2));
  synchronize(ann, cat);
  for (const update of updatesOf(ann, () => ann.getText("text").insert(0, "x"))) {
    for (const it of [bob, cat]) Y.applyUpdate(it, update);
  }
  assert.equal(bob.getText("text").toString(), "xword");
  await requireViolation(watcher, "query", /^Y\.Text 'text': 'bob' reads .*\n[^]*bob has not applied all of message 2/);
  assert.ok(lost.length > 0);
});

test("a stale read is found", async () => {
  for (let run = 0; run < FAULTY_RUNS; run += 1) {
    const editors = new Editors(`stale ${run}`, {});
    const watcher = watch(editors.named);
    editors.run(STEPS);
    editors.synchronizeAll();
    const text = editors.docs[1].getText("text");
    const before = text.toString();
    text.toString = () => before;
    editors.docs[0].getText("text").insert(run % 2, "new");
    editors.synchronizeAll();
    const failed = await failureOf(watcher);
    assert.ok(failed instanceof NotLinearizable, failed);
    assert.match(failed.message, /^Y\.Text 'text': 'bob' reads/);
    assert.equal(failed.cause, "query");
  }
});

test("a stale array is found", async () => {
  const { ann, bob, watcher } = threeEditors();
  ann.getArray("array").insert(0, ["same", "same"]);
  synchronize(ann, bob);
  const before = bob.getArray("array").toArray();
  bob.getArray("array").toArray = () => before;
  ann.getArray("array").insert(1, ["same"]);
  synchronize(ann, bob);
  await requireViolation(watcher, "query", /^Y\.Array 'array': 'bob' reads \['same' ann:0, 'same' ann:1\]|'bob' reads/);
});

test("a character that changes on its way is found", async () => {
  const { ann, bob, watcher } = threeEditors();
  ann.getText("text").insert(0, "a\u{1f600}b");
  synchronize(ann, bob);
  assert.equal(bob.getText("text").toString(), "a\u{1f600}b");
  bob.getText("text")._start.content.str = "a\u{1f601}b";
  bob.getText("text").insert(4, "c");
  await requireViolation(watcher, "query", /'bob' reads \['a ann:0', .*'.* in the place of .* ann:2'/);
});

test("two items in another order are found", async () => {
  const { ann, bob, cat, editors, watcher } = threeEditors();
  ann.getText("text").insert(0, "x");
  bob.getText("text").insert(0, "y");
  synchronize(ann, bob);
  synchronize(bob, ann);
  synchronize(ann, cat);
  const text = cat.getText("text");
  const [first, second] = [text._start, text._start.right];
  Object.assign(text, { _start: second });
  Object.assign(second, { left: null, right: first });
  Object.assign(first, { left: second, right: null });
  cat.getText("text").insert(2, "z");
  editors.synchronizeAll();
  await requireViolation(watcher, "order", /^Y\.Text 'text': .*no single order of the elements agrees/);
});

test("what an editor shows is compared with its text", async () => {
  const { ann, bob, watcher } = threeEditors();
  ann.getText("text").insert(0, "text");
  synchronize(ann, bob);
  watcher.read(bob.getText("text"), "text");
  await watcher.settle();
  watcher.read(bob.getText("text"), "tezt");
  await requireViolation(watcher, "query", /'bob' reads \[.*'z \(no item of Yjs, at index 2\)'/);
});

test("changes that arrive before those that they follow are reported later", async () => {
  const { ann, bob, cat, editors, watcher } = threeEditors();
  ann.getText("text").insert(0, "aa");
  synchronize(ann, bob);
  const [reply] = updatesOf(bob, () => bob.getText("text").insert(2, "b"));
  bob.getArray("array").insert(0, [1]);
  const [deletion] = updatesOf(ann, () => ann.getText("text").delete(0, 1));
  const [insertion] = updatesOf(ann, () => ann.getText("text").insert(0, "c"));
  // cat receives ann's insertion before the deletion that came before it, and types in between.
  synchronize(bob, cat);
  Y.applyUpdate(cat, insertion);
  cat.getText("text").insert(0, "d");
  cat.getText("text").delete(1, 1);
  Y.applyUpdate(cat, deletion);
  Y.applyUpdate(cat, reply);
  editors.synchronizeAll();
  const { held, lists } = await watcher.close();
  assert.ok(held > 0);
  assert.deepEqual(lists.map((it) => [it.name, it.verdict]), [["Y.Text 'text'", "yes"], ["Y.Array 'array'", "yes"]]);
});

test("a transaction that arrives in part is reported when all of it has arrived", async () => {
  const { ann, bob, cat, editors, watcher } = threeEditors();
  ann.getMap("map").set("title", "a");
  editors.synchronizeAll();
  const [needed] = updatesOf(bob, () => bob.getText("text").insert(0, "x"));
  Y.applyUpdate(ann, needed);
  const [update] = updatesOf(ann, () => ann.transact(() => {
    ann.getMap("map").set("title", "b");
    // This and what follows it need the character that cat lacks.
    ann.getText("text").insert(1, "y");
    ann.getMap("map").set("title", "c");
  }));
  Y.applyUpdate(cat, update);
  assert.deepEqual([cat.getMap("map").get("title"), cat.getText("text").toString()], [undefined, ""]);
  Y.applyUpdate(cat, needed);
  assert.deepEqual([cat.getMap("map").get("title"), cat.getText("text").toString()], ["c", "xy"]);
  editors.synchronizeAll();
  const { objects, held } = await watcher.close();
  assert.ok(held > 0);
  assert.deepEqual(objects.map((it) => it.verdict), ["yes"]);
});

test("a transaction of an observer is reported before the next read", async () => {
  const acts = [
    (map, watcher) => watcher.read(map, { title: "b" }),
    (_, watcher) => watcher.close({ complete: false }).catch(() => {}),
  ];
  for (const act of acts) {
    const { ann, watcher } = threeEditors();
    const map = ann.getMap("map");
    map.observe(() => {
      if (map.get("title") !== "a") return;
      map.set("title", "b");
      act(map, watcher);
      ann.transact(() => assert.throws(() => watcher.read(map, { title: "b" }), /^Error: a transaction is running: /));
    });
    map.set("title", "a");
    const { objects, labels } = await watcher.close({ complete: false });
    assert.deepEqual(objects.map((it) => it.verdict), ["yes"]);
    // Two updates and what is read behind each of them.
    assert.ok(labels >= 4, String(labels));
  }
});

test("a document that lacks changes at the end needs an option", async () => {
  for (const complete of [false, true]) {
    const { ann, watcher } = threeEditors();
    ann.getText("text").insert(0, "a");
    if (complete) await requireViolation(watcher, "query", /'bob' reads \[\]/);
    else assert.equal((await watcher.close({ complete })).labels, 3);
  }
});

test("what is not checked is named, and nothing but that is rejected", async () => {
  const { ann, watcher } = threeEditors();
  const warned = new Promise((resolve) => process.once("warning", resolve));
  // A type of a later version of Yjs, as far as its calls tell.
  ann.getMap("later").entries = undefined;
  ann.getMap("later").set("theme", 1);
  assert.match((await warned).message, /^an unopened type 'later' is not checked: it is no shared type of Yjs that is/);
  await assert.rejects(watcher.close(), /no shared type changed while it was watched, so nothing was checked/);
  const { ann: other, editors, watcher: second } = threeEditors();
  other.getMap("settings").set("page", new Y.Doc());
  other.getMap("settings").set("theme", new Y.Text("dark"));
  editors.synchronizeAll();
  other.getMap("settings").get("theme").insert(4, "er");
  other.getMap("settings").delete("theme");
  editors.synchronizeAll();
  const { lists, objects, unchecked } = await second.close();
  assert.deepEqual(unchecked, ["a subdocument in Y.Map 'settings'"]);
  assert.deepEqual([lists.length, objects.length], [1, 1]);
});

test("a map is one value, and what is in it is watched by itself", async () => {
  const { ann, bob, cat, editors, watcher } = threeEditors();
  ann.getMap("map").set("title", "a");
  editors.synchronizeAll();
  // Two documents set one key, and a third one sees the outcome.
  ann.getMap("map").set("title", { text: "b" });
  bob.getMap("map").set("title", new Y.Map([["text", "c"]]));
  bob.getMap("map").get("title").set("size", 1);
  editors.synchronizeAll();
  cat.getMap("map").delete("title");
  watcher.read(cat.getMap("map"), {});
  // What is removed in the transaction that makes it is shown to no one.
  cat.transact(() => {
    cat.getMap("map").set("size", new Y.Map([["text", "d"]]));
    cat.getMap("map").delete("size");
  });
  editors.synchronizeAll();
  const { objects, labels } = await watcher.close();
  assert.deepEqual(objects.map((it) => [it.kind, it.verdict]), [["any", "yes"], ["any", "yes"]]);
  assert.equal(objects[0].name, "Y.Map 'map'");
  assert.ok(labels > 12, String(labels));
});

test("a lost update of a map is found", async () => {
  const { ann, bob, editors, watcher } = threeEditors();
  ann.getMap("map").set("title", "a");
  editors.synchronizeAll();
  const [update] = updatesOf(ann, () => ann.getMap("map").set("title", "b"));
  Y.applyUpdate(bob, update);
  await requireViolation(watcher, "query", /^Y\.Map 'map': 'cat' reads \{ title: 'a' \}: .* an earlier read that sees/);
});

test("an editor that shows another map is found", async () => {
  const { ann, bob, editors, watcher } = threeEditors();
  ann.getMap("map").set("title", "a");
  editors.synchronizeAll();
  watcher.read(bob.getMap("map"), { title: "b" });
  const shown = /^Y\.Map 'map': 'bob' reads \{ title: 'b' \}: .*: 'ann' reads \{ title: 'a' \}/;
  await requireViolation(watcher, "query", shown);
});

test("a stale map is found", async () => {
  const { ann, bob, editors, watcher } = threeEditors();
  ann.getMap("map").set("title", "a");
  editors.synchronizeAll();
  const stale = [...bob.getMap("map").entries()];
  bob.getMap("map").entries = () => stale.values();
  ann.getMap("map").set("title", "b");
  editors.synchronizeAll();
  await requireViolation(watcher, "query", /'bob' reads \{ title: 'a' \}: .*: 'ann' reads \{ title: 'b' \}/);
});

test("a deletion in a map that gets lost is found", async () => {
  const { ann, bob, editors, watcher } = threeEditors();
  ann.getMap("map").set("title", "a");
  editors.synchronizeAll();
  ann.getMap("map").delete("title");
  synchronize(ann, bob);
  await requireViolation(watcher, "query", /'cat' reads \{ title: 'a' \}: .*: 'ann' reads \{\}/);
});

/** The same, whose page has a paragraph with a text and a hook. */
function pageEditors() {
  const three = threeEditors();
  fillPage(three.ann);
  three.editors.synchronizeAll();
  return three;
}

async function requireViolationOf(node, watcher, change, text) {
  const failed = await failureOf(watcher);
  assert.ok(failed instanceof NotLinearizable, `${change}: ${failed}`);
  assert.ok(withoutIdentity(failed.message).startsWith(`${NAMES[node]}: `), failed.message);
  assert.match(failed.message, text);
}

test("each XML type is a value, and what is in it is watched by itself", async () => {
  const { ann, bob, cat, editors, watcher } = pageEditors();
  pageOf(ann).element.setAttribute("class", "second");
  pageOf(bob).element.setAttribute("class", "third");
  pageOf(bob).text.insert(4, " more");
  pageOf(cat).text.format(2, 7, { bold: null });
  pageOf(cat).page.delete(1, 1);
  pageOf(ann).hook.set("size", 2);
  editors.synchronizeAll();
  watcher.read(pageOf(bob).text, { text: pageOf(ann).text.toDelta(), attributes: {} });
  watcher.read(pageOf(bob).element, { children: [pageOf(bob).text], attributes: pageOf(ann).element.getAttributes() });
  const refused = /^TypeError: Y\.XmlText in the item .* is shown as 'some more text': expected an object$/;
  assert.throws(() => watcher.read(pageOf(bob).text, "some more text"), refused);
  const { lists, objects, unchecked } = await watcher.close();
  assert.deepEqual([lists, unchecked], [[], []]);
  assert.ok(objects.every((it) => it.kind === "any" && it.verdict === "yes"));
  assert.deepEqual(objects.map((it) => withoutIdentity(it.name)), Object.values(NAMES));
});

test("a lost update of each XML type is found", async () => {
  for (const [node, , change] of PAGE_CHANGES) {
    const { ann, bob, watcher } = pageEditors();
    for (const update of updatesOf(ann, () => change(pageOf(ann)[node]))) Y.applyUpdate(bob, update);
    await requireViolationOf(node, watcher, change, /'cat' reads .*: .*, an earlier read that sees the same updates/);
  }
});

test("a stale read of each XML type is found", async () => {
  for (const [node, call, change] of PAGE_CHANGES) {
    const { ann, bob, editors, watcher } = pageEditors();
    const before = pageOf(bob)[node][call]();
    const stale = Symbol.iterator in before ? [...before] : before;
    pageOf(bob)[node][call] = () => stale;
    change(pageOf(ann)[node]);
    editors.synchronizeAll();
    await requireViolationOf(node, watcher, change, /'bob' reads .*: .*, an earlier read that sees the same updates/);
  }
});

test("an editor that shows another XML node is found", async () => {
  const { bob, cat, watcher } = pageEditors();
  watcher.read(pageOf(cat).text, { text: [{ insert: "some", attributes: { bold: true } }, { insert: " text" }] });
  await watcher.settle();
  watcher.read(pageOf(bob).text, { text: [{ insert: "some text", attributes: { bold: true } }] });
  const shown = /^Y\.XmlText .*'bob' reads \{ text: \[ \{ insert: 'some text', attributes: \{ bold: true \} \} \]/;
  await requireViolation(watcher, "query", shown);
  const { bob: other, watcher: second } = pageEditors();
  pageOf(other).element.nodeName = "q";
  await requireViolation(second, "query", /^Y\.XmlFragment 'page': 'bob' reads .*<q>, .*: 'ann' reads .*<p>, /);
  const { ann, watcher: third } = pageEditors();
  const { page, hook } = pageOf(ann);
  page.delete(0, 1);
  page.insert(1, [new Y.XmlHook("hook")]);
  third.read(page, { children: [page.get(1), hook] });
  await requireViolation(third, "query", /^Y\.XmlFragment 'page': 'ann' reads .*: .*: 'ann' reads /);
});

test("an insertion and an attribute in one transaction are both reported", async () => {
  const { ann, bob, cat, editors, watcher } = threeEditors();
  ann.transact(() => {
    ann.getText("text").insert(0, "text");
    ann.getText("text").setAttribute("size", 4);
  });
  editors.synchronizeAll();
  assert.deepEqual([bob.getText("text").toString(), cat.getText("text").getAttribute("size")], ["text", 4]);
  const { lists, objects, unchecked } = await watcher.close();
  assert.deepEqual(unchecked, []);
  assert.deepEqual([...lists, ...objects].map((it) => [it.name, it.verdict]), [
    ["Y.Text 'text'", "yes"], ["the formatting of Y.Text 'text'", "yes"],
  ]);
});

test("the formatting of a text is a value from the first format on", async () => {
  const { ann, bob, cat, editors, watcher } = threeEditors();
  ann.getText("plain").insert(0, "plain");
  ann.getText("text").insert(0, "some text");
  synchronize(ann, bob);
  // This comes before the first format, and does not know of it.
  bob.getText("text").insert(4, " more");
  ann.getText("text").format(0, 6, { bold: true });
  synchronize(ann, cat);
  synchronize(bob, cat);
  // cat has not opened the text.
  assert.equal(typeof cat.share.get("text").toDelta, "undefined");
  editors.synchronizeAll();
  bob.getText("text").insertEmbed(2, { image: 1 });
  ann.getText("text").format(0, 3, { bold: null, link: { to: "b" } });
  editors.synchronizeAll();
  watcher.read(bob.getText("text"), { text: ann.getText("text").toDelta() });
  const { lists, objects } = await watcher.close();
  assert.deepEqual(lists.map((it) => [it.name, it.verdict]), [["Y.Text 'plain'", "yes"], ["Y.Text 'text'", "yes"]]);
  assert.deepEqual(objects.map((it) => [it.name, it.verdict]), [["the formatting of Y.Text 'text'", "yes"]]);
});

test("a lost format and a stale one are found", async () => {
  for (const isLost of [true, false]) {
    const { ann, bob, editors, watcher } = threeEditors();
    ann.getText("text").insert(0, "some text", { bold: true });
    editors.synchronizeAll();
    const stale = bob.getText("text").toDelta();
    if (!isLost) bob.getText("text").toDelta = () => stale;
    ann.getText("text").format(0, 4, { bold: null });
    if (!isLost) editors.synchronizeAll();
    await requireViolation(watcher, "query", /^the formatting of Y\.Text 'text': 'bob' reads .*insert: 'some text'/);
  }
});

test("a watcher that is left open fails the process", () => {
  const source = `import { watch } from "./yjs/index.js";
    import { Y } from "./test/yjs_editors.js";
    watch([new Y.Doc()]);`;
  const options = { cwd: new URL("..", import.meta.url), encoding: "utf8" };
  const ran = spawnSync(process.execPath, ["--input-type=module", "--eval", source], options);
  assert.equal(ran.status, 3, ran.stderr);
  assert.match(ran.stderr, /^yehatu: the watch\(\.\.\) that was called at .*: not closed, so the last reports were/m);
});

test("content of documents that are not watched is rejected", async () => {
  const { bob, watcher } = threeEditors();
  const other = new Y.Doc();
  other.getText("text").insert(0, "x");
  bob.getText("text").insert(0, "y");
  synchronize(other, bob);
  const failed = await failureOf(watcher, { complete: false });
  assert.ok(failed instanceof NotRepresentable, failed);
  assert.match(failed.message, /^bob shows x, the item \d+:0, which no watched document inserted: watch every/);
  assert.throws(() => watch([other]), /'a' has content: watch documents before their first change/);
  assert.throws(() => watch([{}]), /'a' is \{\}: expected a Y\.Doc/);
});

test("recorded lists are those of the example", () => {
  const top = new URL("../../../", import.meta.url);
  const pages = new URL("tests/explanations/pages/", top);
  const script = fileURLToPath(new URL("examples/libraries/yjs_by_clocks.mjs", top));
  const seeds = readdirSync(pages).flatMap((it) => /^orders_yjs_(\d+)\.rah$/.exec(it)?.[1] ?? []);
  assert.equal(seeds.length, 6);
  for (const seed of seeds) {
    const { stdout, stderr } = spawnSync(process.execPath, [script, seed], { encoding: "utf8" });
    assert.equal(stdout, readFileSync(new URL(`orders_yjs_${seed}.rah`, pages), "utf8"), stderr);
  }
});
