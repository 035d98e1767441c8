// The types of the module `yehatu/yjs`.
import type { MonitorOptions, Report } from "../index.js";

/** A `Y.Doc`. */
export interface SharedDocument {
  /** The number that Yjs gives to the items of this document. */
  readonly clientID: number;
  /** The shared types by their names. */
  readonly share: ReadonlyMap<string, unknown>;
}

/** The documents: a list, whose documents are called a, b, c and so on, or an object or a map with their names. */
export type SharedDocuments =
  | readonly SharedDocument[]
  | ReadonlyMap<string, SharedDocument>
  | { readonly [name: string]: SharedDocument };

/** The options of a watcher. */
export interface WatchOptions extends MonitorOptions {
  /** The file to which the history of an object is written when a report fails. */
  history?: string;
}

/** The report of one object, with its name. */
export interface ObjectReport extends Report {
  /** What it is, such as `Y.Text 'notes'`. */
  name: string;
}

/** What a user sees of a `Y.XmlFragment` or a `Y.XmlElement`. */
export interface Children {
  /** The shared types in it, as `toArray` returns them. */
  children?: readonly object[];
  /** The attributes, as `getAttributes` returns them. */
  attributes?: { readonly [name: string]: unknown };
}

/** What a user sees of a `Y.XmlText`, or of a `Y.Text` with its formatting. */
export interface FormattedText {
  /** The text, as `toDelta` returns it. */
  text?: readonly { readonly insert: unknown; readonly attributes?: { readonly [name: string]: unknown } }[];
  /** The attributes of the whole text, as `getAttributes` returns them. */
  attributes?: { readonly [name: string]: unknown };
}

/** What was checked. */
export interface WatchReport {
  /** The number of accepted operations of all objects. */
  labels: number;
  /** The report of each object of the kind `list`: each `Y.Array` and `Y.Text`. */
  lists: ObjectReport[];
  /** The report of each object of the kind `any`, such as `Y.Map 'settings'` or `the formatting of Y.Text 'notes'`. */
  objects: ObjectReport[];
  /** The number of reads that were left out, since the document had a change and lacked one that came before it. */
  held: number;
  /** What changed and is not checked, such as `a subdocument in Y.Map 'settings'`. */
  unchecked: string[];
}

/**
 * Reports what happens in these documents from now on: each `Y.Array` and `Y.Text` as the kind `list`, and each `Y.Map`
 * and XML type as the kind `any`, nested ones too, to a monitor of its own. So is the formatting of each `Y.Text` that
 * has formats or attributes. The documents are empty still, and all documents in which someone makes changes are among
 * them.
 */
export function watch(docs: SharedDocuments, options?: WatchOptions): Watcher;

/**
 * What is watched. Each insertion into a list and each removal is reported with the identities that Yjs gives to
 * characters and elements, and each change of another type as an update. Each transaction of a document is followed by
 * a read of what it shows. A change counts as delivered to a document when its state vector and its removed items say
 * so. A watcher that is neither closed nor stopped lets the process end with status 3.
 */
export class Watcher {
  /**
   * Reports what a user of this shared type sees, such as an editor that has a copy of a `Y.Text`. It is compared with
   * what the reports allow. It is a text or a list of values for the kind `list`, and an object for the kind `any`: the
   * entries of a map, `Children` of an XML fragment or element, or `FormattedText` of an XML text or a `Y.Text`. What
   * is left out of an object is what the document shows. Throws if a transaction of the document is running.
   */
  read(
    type: { readonly doc: object | null },
    shown: string | Iterable<unknown> | Children | FormattedText | object,
  ): void;
  /** Waits for the replies to all reports so far. Rejects with the first failure. */
  settle(): Promise<void>;
  /**
   * Ends the reports, and says what was checked. Rejects with `NotLinearizable` if an object has a violation, and with
   * `NotRepresentable` if something could not be reported or nothing was checked. Each document has to have received
   * all changes, so that a lost one is found, unless `complete` is false.
   */
  close(options?: { complete?: boolean }): Promise<WatchReport>;
  /** Ends the reports without waiting for replies. */
  stop(): Promise<void>;
}
