// A page of XML nodes, and a change of each of them.
import { Y } from "./yjs_editors.js";

/** How the reports name each node of a page. */
export const NAMES = {
  page: "Y.XmlFragment 'page'", element: "Y.XmlElement <p> in the item ID", text: "Y.XmlText in the item ID",
  hook: "Y.XmlHook <hook> in the item ID",
};
/** Changes of each node, with the call that shows them. */
export const PAGE_CHANGES = [
  ["page", "toArray", (it) => it.insert(2, [new Y.XmlElement("br")])],
  ["page", "toArray", (it) => it.delete(1, 1)],
  ["element", "getAttributes", (it) => it.setAttribute("class", "new")],
  ["element", "getAttributes", (it) => it.removeAttribute("class")],
  ["element", "toArray", (it) => it.insert(0, [new Y.XmlText("x")])],
  ["text", "toDelta", (it) => it.insert(9, "s")],
  ["text", "toDelta", (it) => it.delete(5, 4)],
  ["text", "toDelta", (it) => it.format(5, 4, { link: { to: "b" } })],
  ["text", "getAttributes", (it) => it.setAttribute("size", 2)],
  ["hook", "entries", (it) => it.set("size", 2)],
];

/** Inserts a paragraph with a text, which is partly bold, and a hook into the page of a document. */
export function fillPage(doc) {
  const [element, text, hook] = [new Y.XmlElement("p"), new Y.XmlText("some text"), new Y.XmlHook("hook")];
  element.insert(0, [text]);
  doc.getXmlFragment("page").insert(0, [element, hook]);
  element.setAttribute("class", "first");
  text.format(0, 4, { bold: true });
  hook.set("size", 1);
}

/** Returns the page of a document, and the nodes in it. */
export function pageOf(doc) {
  const page = doc.getXmlFragment("page");
  const [element, hook] = page.toArray();
  return { page, element, hook, text: element.get(0) };
}

/** Returns a text without the first identity in it. */
export const withoutIdentity = (text) => text.replace(/\d+:\d+/, "ID");
