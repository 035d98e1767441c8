// A test of what uses Yjs: NODE_PATH=/usr/share/nodejs node --test examples/libraries/yjs_watch.mjs
import { createRequire } from "node:module";
import { test } from "node:test";
import { watch } from "../../clients/javascript/yjs/index.js";

const Y = createRequire(import.meta.url)("yjs");

/** Sends each update of a document to the others, as a server does. */
function connect(docs) {
  for (const doc of docs) doc.on("update", (update) => docs.forEach((it) => Y.applyUpdate(it, update)));
}

test("one order explains what all editors show", async () => {
  const docs = { ann: new Y.Doc(), bob: new Y.Doc(), cat: new Y.Doc() };
  const watcher = watch(docs);
  connect(Object.values(docs));
  docs.ann.getText("notes").insert(0, "hello");
  docs.bob.getText("notes").delete(1, 2);
  await watcher.close();
});
